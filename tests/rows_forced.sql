-- Two assertions that leave one value.
create table t (a);
insert into t values (?x);
assert ?x = 7 or ?x = 8;
assert ?x <> 8;
possible select a from t;
select * from t;
