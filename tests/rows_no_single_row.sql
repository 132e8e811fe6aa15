-- A tuple that is certain, though no single row is there in each world.
create table t (a);
insert into t values (?x) if ?x = 1;
insert into t values (1) if ?x <> 1;
certain select * from t;
select * from t;
