-- What is refused in a transaction leaves it as it was, and the transaction goes on.
create table t (a);
create table u (a, b);
insert into t values (1), (?x);
begin;
insert into t values (2);

-- The text.
insert into t values (3;
insert into t values 'open) ;
'; insert into t values (99999999999999999999);
assert ((((((((((((((((((((((((((((((((((((((((((((((((((((((((((((((((( 1 = 1 )))))))))))))))))))))))))))))))))))))))))))))))))))))))))))))))));
update t;
select * from t;

-- A transaction in it.
begin;
select * from t;

-- Names and counts.
insert into nowhere values (1);
create table t (b);
create table v (b, b);
insert into t values (1, 2);
insert into t select a, b from u;
insert into t select a from t, u;
insert into t select c from t;
insert into t values (1) if a = 1;
delete from nowhere;
delete from t where b = 1;
assert a = 1;
select * from nowhere;
select b from t;
select a from t, u;
select * from t, t;
possible select c from t;
certain select a from t union select * from u;
select * from t;

-- A table that the transaction created counts as there.
create table v (c);
create table v (d);
insert into v values (1, 2);
insert into v values (7);
select a from v;
select * from v;

-- No world: the insertion before and the one after are kept.
assert ?x = 1;
assert ?x = 2;
insert into t values (4);
certain select * from t;

-- A query that goes through too many rows.
create table d (n);
insert into d values (0), (1), (2), (3), (4), (5), (6), (7), (8), (9);
select p.n from d p, d q, d r, d s, d t, d u, d v, d w where false;
insert into t select p.n from d p, d q, d r, d s, d t, d u, d v, d w where false;
possible select p.n from d p, d q, d r, d s, d t, d u, d v, d w where false;
select * from t;
commit;
select * from t;
select * from v;
assert ?x = 2;
