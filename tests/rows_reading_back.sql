-- A transaction reads what it wrote, and a rollback takes it back.
create table t (a);
begin; insert into t values (1); select * from t; rollback;
select * from t; insert into t values (2); select * from t;
