-- The script ends in a transaction. Nothing of it is in the history.
create table t (a);
insert into t values (1);
begin;
insert into t values (2);
create table u (a);
assert ?x = 1;
delete from t where a = 1;
select * from t;
certain select * from t;
