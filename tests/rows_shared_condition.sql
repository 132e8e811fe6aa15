-- Rows that share a condition, and an insertion from a query over them.
create table t (a); create table u (a);
insert into t values (1), (?x) if ?y = 1 or ?z = 2;
insert into u select a from t where a = 2;
select * from u;
select * from t;
