-- Assertions over queries: that a query has a row, and that it has none. Each case is taken back at its end.

-- A row that is there, and one that is not.
begin;
create table a1 (a, b);
insert into a1 values (1, 2);
assert exists (select * from a1);
assert not exists (select * from a1 where a = 3);
assert exists (select a from a1 where b = 3);
assert not exists (select a from a1);
select * from a1;
rollback;

-- A table of no rows.
begin;
create table a2 (a);
assert not exists (select * from a2);
assert exists (select * from a2);
rollback;

-- What is known of a gap.
begin;
create table a3 (a);
insert into a3 values (?p3), (1);
assert exists (select * from a3 where a = 2);
select * from a3;
certain select * from a3;
create table a4 (a);
insert into a4 values (?p4), (1);
assert not exists (select * from a4 where a = 2);
select * from a4;
select a from a4 where a = 2;
rollback;

-- A gap is one of a list.
begin;
create table a5 (number, name);
insert into a5 values (1, 'Ann'), (2, 'Bob'), (3, 'Cy');
assert exists (select * from a5 where name = ?p5);
create table a6 (name);
insert into a6 values (?p5);
select number from a5, a6 where a5.name = a6.name;
possible select number from a5, a6 where a5.name = a6.name and number = 2;
certain select a6.name from a5, a6 where a5.name = a6.name;
assert not exists (select * from a5, a6 where a5.name = a6.name and number = 3);
select * from a6;
assert ?p5 <> 'Ann';
certain select * from a6;
rollback;

-- Conditional rows.
begin;
create table a7 (a);
insert into a7 values (1) if ?p7 = 1;
assert exists (select * from a7);
certain select * from a7;
create table a8 (a);
insert into a8 values (1) if ?p8 = 1 or ?q8 = 1;
assert not exists (select * from a8);
select * from a8;
rollback;

-- A join, with nulls on both sides.
begin;
create table a9 (a);
create table b9 (b);
insert into a9 values (?p9), (1);
insert into b9 values (?q9), (2);
assert not exists (select * from a9, b9 where a = b);
select * from a9, b9;
assert ?p9 = 2;
assert ?q9 = 1;
assert ?q9 = 3 and ?p9 = 3;
rollback;

-- UNION, EXCEPT and INTERSECT, with parentheses.
begin;
create table c1 (a);
create table c2 (a);
insert into c1 values (1), (?r1);
insert into c2 values (1), (2);
assert not exists (select a from c1 except select a from c2);
select * from c1;
assert exists ((select a from c1) intersect (select a from c2 where a = 2));
certain select * from c1;
assert not exists ((select a from c1 union select a from c2) except select a from c2);
assert exists (select a from c2 except select a from c1);
rollback;

-- An assertion over a query with an alias, a self-join and columns of two tables.
begin;
create table c4 (a, b);
insert into c4 values (1, ?r4), (2, 1);
assert not exists (select p.a from c4 as p join c4 q on p.a = q.b where p.b = q.a and p.a <> q.a);
select * from c4;
rollback;

-- The condition of a query may be true or false of itself.
begin;
create table c5 (a);
insert into c5 values (?r5);
assert exists (select * from c5 where true);
assert not exists (select * from c5 where false);
assert exists (select * from c5 where ?r5 = a);
assert not exists (select * from c5 where ?r5 <> a);
assert exists (select * from c5 where ?s5 = 1);
select * from c5;
assert exists (select * from c5 where ?s5 = 2);
rollback;

-- Drawn nulls: they may be any value, so they are no row of a kind that is known.
begin;
create table d1 (a);
insert into d1 values (NULL), (NULL);
assert exists (select p.a from d1 p, d1 q where p.a = q.a);
assert not exists (select * from d1 where a = 1);
select * from d1;
rollback;

-- Two assertions that leave no world together.
begin;
create table d2 (a);
insert into d2 values (?t2);
assert exists (select * from d2 where a = 1);
assert exists (select * from d2 where a = 2);
assert not exists (select * from d2 where a = 1);
assert exists (select * from d2 where a = 1);
rollback;

-- Names that are refused, in the query's order.
begin;
create table d2 (a);
create table c7 (a, b);
assert exists (select * from none);
assert not exists (select c from d2);
assert exists (select a from d2, d2);
assert exists (select a from d2 p, d2 q);
assert not exists (select a from d2 union select * from c7);
assert exists (select a from d2 where none.a = 1);
rollback;

-- What is no such assertion.
begin;
create table d2 (a);
create table c7 (a, b);
assert exists;
assert exists select * from d2;
assert exists (a = 1);
assert exists ();
assert exists (select * from d2) and 1 = 1;
assert exists (select * from d2), (select * from c7);
assert 1 = 1 and exists (select * from d2);
assert not not exists (select * from d2);
assert not (exists (select * from d2));
assert (exists (select * from d2));
assert exists not (select * from d2);
assert exists (possible select * from d2);
assert exists (insert into d2 values (1));
assert exists (select * from d2;
assert exists (select * from d2));
possible assert exists (select * from d2);
select * from d2 where exists (select * from c7);
delete from d2 where not exists (select * from c7);
insert into d2 values (1) if exists (select * from c7);
exists (select * from d2);
rollback;

-- Parentheses around the query, more of them, and letters of both kinds.
begin;
create table d2 (a);
insert into d2 values (1);
ASSERT EXISTS ((((SELECT * FROM d2))));
Assert Not Exists ((Select * From d2 Where a = 2) Union (Select * From d2 Where a = 3));
rollback;
