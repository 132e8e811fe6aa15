create table t (a); insert into t values (9223372036854775807), (-9223372036854775808); insert into t values (9223372036854775808); select * from t;
