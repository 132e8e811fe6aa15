-- What a query copies keeps its number, and a new null may be worth what an old one is.
create table t (a, b);
create table u (a);
insert into t values (NULL, 1), (2, NULL);
insert into u select a from t where b = 1;
insert into u select a from t where b = 1;
insert into u values (NULL);
select * from u;
delete from u where a = 1;
select * from u;
select p.a, q.a from u p, u q where p.a = q.a;
begin;
insert into u select b from t;
select * from u;
rollback;
insert into u values (NULL);
certain select a from u except select b from t;
