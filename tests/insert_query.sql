-- Insertions of what a query has, over tables of conditional rows and over the table itself.
create table s (a, b);
insert into s values (1, ?x), (?y, 2), (3, 'c');
create table c (a);
insert into c values (1), (?x) if ?y = 1 or ?y = 2;
create table e (a);

-- All rows, and some.
create table b1 (a, b);
insert into b1 select * from s;
select * from b1;

create table b2 (a);
insert into b2 select a from s where b = 2;
select * from b2;

-- Columns in another order, twice, and under other names: the table keeps its own.
create table b3 (p, q);
insert into b3 select b, a from s;
insert into b3 select a, a as z from s;
select * from b3;

-- Rows with conditions keep them.
create table b4 (a);
insert into b4 select a from c;
select * from b4;
insert into b4 select a from c where a = 2;
select * from b4;

-- A row that the table has already is merged with it.
create table b5 (a);
insert into b5 values (1) if ?x = 2;
insert into b5 select a from c;
select * from b5;

-- The table itself: nothing is added to a set that it has.
create table b6 (a);
insert into b6 values (1), (?x);
insert into b6 select a from b6;
select * from b6;
insert into b6 select p.a from b6 p, b6 q;
select * from b6;

-- The table itself under a condition.
create table b7 (a, b);
insert into b7 values (1, 2), (?x, 3);
insert into b7 select b, a from b7;
select * from b7;
insert into b7 select b, a from b7 where a = 1;
select * from b7;

-- A query without rows, plainly, and one that has none in any world.
create table b8 (a);
insert into b8 select a from e;
insert into b8 select a from s where false;
insert into b8 select a from s where a = 1 and a <> 1;
insert into b8 select a from c where a = 1 and a = 2;
insert into b8 select a from s where a = 'z' and b = 'z' and a <> b;
select * from b8;
possible select * from b8;

-- Set operators.
create table b9 (a);
insert into b9 select a from s union select b from s;
select * from b9;
create table b10 (a);
insert into b10 select a from s except select a from c;
select * from b10;
create table b11 (a);
insert into b11 select a from s intersect select a from c;
select * from b11;
create table b12 (a);
insert into b12 (select a from c);
insert into b12 (select a from s union select a from c) intersect select b from s;
select * from b12;

-- Products and joins.
create table b13 (a, b);
insert into b13 select s.a, c.a from s, c where s.a = c.a;
select * from b13;
create table b14 (a);
insert into b14 select p.b from s p join s q on p.a = q.b;
select * from b14;

-- What is inserted stays, when the tables of the query change.
create table b15 (a);
create table b16 (a);
insert into b15 values (1), (?x);
insert into b16 select a from b15;
delete from b15;
select * from b16;
insert into b15 values (9);
select * from b16;

-- A row that was deleted comes back in the last place.
create table b17 (a);
create table b18 (a);
insert into b17 values (1), (2), (3);
insert into b18 select a from b17 where a = 2;
delete from b17 where a = 2;
insert into b17 select a from b18;
select * from b17;

-- One after another.
create table b19 (a);
create table b20 (a);
create table b21 (a);
insert into b19 values (?x) if ?x <> 1;
insert into b20 select a from b19 where a <> 2;
insert into b21 select a from b20 where a <> 3;
select * from b21;
possible select * from b21;
certain select * from b21;

-- With a null of the query's own.
create table b22 (a);
insert into b22 select a from s where a = ?z;
insert into b22 select a from s where ?z = 4;
select * from b22;

-- Two rows of the query that share a condition.
create table b23 (a);
insert into b23 select a from s where ?x = 1 or ?y = 1;
select * from b23;

-- DISTINCT and aliases.
create table b24 (a);
insert into b24 select distinct z.b as a from s as z;
select * from b24;

-- What is refused: the table first, then the query, then the number of columns.
create table b25 (a);
insert into nowhere select * from alsonowhere;
insert into b25 select * from nowhere;
insert into b25 select z from s;
insert into b25 select a from s, s;
insert into b25 select a from s, c;
insert into b25 select a, b from s;
insert into b25 select * from s;
insert into b25 select a from s union select a, b from s;
insert into b25 select a from s if ?x = 1;
insert into b25 possible select a from s;
insert into b25 values (1) select a from s;
select * from b25;
