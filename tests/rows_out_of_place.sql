-- Transactions that begin or end where they can't.
begin; begin; rollback; commit; begin; commit; rollback
