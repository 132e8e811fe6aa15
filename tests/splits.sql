-- Where statements end: at a ; outside texts and comments, where something stands before it.
;; -- nothing;
;
begin; commit;
a 'it''s;'; b;
a -- b; c;
 d; e;
-- '
a;
a ';' b; c '--;
