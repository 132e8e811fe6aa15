-- A deletion by a null.
create table t (a); insert into t values (1), (2); delete from t where a = ?x; select * from t;
