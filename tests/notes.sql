-- A text that goes on in the next line, beside a refused statement, and a transaction that is not ended.
create table t (a);
insert into t values ('one
two');
select b from t;
select * from t left;
possible select x.a from t x, t
  order;
certain select * from t as full;
select * from t right join t on true;
select * from t natural join t on true;
select * from t cross join t on true;
select * from t limit;
select * from t group;
select * from t using;
select * from t window;
select t.a from t left join t x on t.a = x.a;
select t.a from t cross join t x on t.a = x.a;
begin;
insert into t values (1)
