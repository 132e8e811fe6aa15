-- A NULL under a condition is drawn, also where the condition is false.
create table t (a);
insert into t values (NULL) if ?x = 1;
insert into t values (NULL) if false;
insert into t values (NULL) if 1 = 2 or ?x <> ?x;
insert into t values (NULL);
select * from t;
certain select p.a from t p, t q where p.a = q.a;
possible select a from t where a = 1;
