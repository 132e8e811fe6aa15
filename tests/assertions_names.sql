-- The line of the worlds and the rows of an answer share the names of conditions.
create table t (a, b);
insert into t values (1, ?x) if ?x = 1 or ?y = 1;
insert into t values (2, ?y) if ?x = 2 or ?y = 2;
assert ?x = 1 or ?y = 1;
select * from t;
select b from t where a = 1;
select a from t where b = 1;
assert ?x = 1 and ?y <> 3 or ?x = 2 and ?y <> 3;
select * from t;
select a from t where ?x = 1 and ?y <> 3;
assert not (?x = 2 and ?y = 2);
select a from t where not (?x = 2 and ?y = 2);
select a from t;
possible select a, b from t;
certain select a from t;
