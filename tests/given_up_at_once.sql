-- The script ends behind its BEGIN.
begin
