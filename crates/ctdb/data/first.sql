create table t (a,b); insert into t values (1,?x); select * from t where b = 2
