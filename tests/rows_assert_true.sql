-- A query, an assertion that each world meets, and an insertion.
create table t (a); select a from t; assert 1 = 1; insert into t values ('it''s');
