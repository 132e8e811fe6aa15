-- Insertions: under a condition, of rows that are there already, and in what order rows stay. Each case has tables of its own.

-- A condition on one null.
create table a1 (a);
insert into a1 values (1) if ?x = 2;
select * from a1;
select a from a1 where ?x = 2;
select a from a1 where ?x = 3;

-- A condition with the cell's own null.
create table a2 (a);
insert into a2 values (?x) if ?x <> 1;
select * from a2;
select * from a2 where a = 1;
possible select * from a2 where a = 1;
certain select * from a2;

-- Several rows under one condition, which has a name where it is an OR or AND.
create table a3 (a, b);
insert into a3 values (1, ?x), (2, ?y), (3, 'c') if ?x = 1 or ?y = 1;
select * from a3;
select b from a3 where a = 1;

-- One row under an OR: nothing else leads to it, and it has no name.
create table a4 (a);
insert into a4 values (1) if ?x = 1 or ?y = 1;
select * from a4;

-- A condition that is plainly true is none.
create table a5 (a);
insert into a5 values (1) if true;
insert into a5 values (2) if 1 = 1;
insert into a5 values (3) if not ?x <> ?x;
insert into a5 values (4) if ?x = ?x and true;
insert into a5 values (5) if 'a' <> 'b' or ?x = 1;
select * from a5;

-- A condition that is plainly false: the row is recorded, and is nowhere.
create table a6 (a);
insert into a6 values (1) if false;
insert into a6 values (2), (3) if 1 = '1';
insert into a6 values (4) if ?x <> ?x;
insert into a6 values (5) if ?x = 1 and not ?x = 1;
select * from a6;
possible select * from a6;
certain select * from a6;

-- A condition that is false, but is no single denial of itself.
create table a7 (a);
insert into a7 values (1) if ?x = 1 and ?x = 2;
insert into a7 values (2) if ?x = ?y and ?y = 1 and ?x <> 1;
select * from a7;
possible select * from a7;

-- A condition that is true in each world, but not plainly.
create table a8 (a);
insert into a8 values (1) if ?x = 1 or ?x <> 1;
insert into a8 values (2) if ?x <> 1 or ?x <> 2;
insert into a8 values (3) if ?x = ?y or ?x <> 1 or ?y <> 1;
select * from a8;
certain select * from a8;

-- The same row again: its conditions are joined by OR, at its first place.
create table a9 (a);
insert into a9 values (1) if ?x = 1;
insert into a9 values (2);
insert into a9 values (1) if ?x = 2;
select * from a9;
insert into a9 values (1) if ?x = 1;
select * from a9;
insert into a9 values (1) if ?x <> 1;
select * from a9;
insert into a9 values (1);
select * from a9;

-- Rows that are the same twice in one insertion.
create table a10 (a, b);
insert into a10 values (1, 2), (1, 2), (1, ?x), (1, 2), (1, ?x) if ?y = 1;
select * from a10;
insert into a10 values (1, ?x);
select * from a10;

-- Rows that are the same in some worlds alone stay two.
create table a11 (a);
insert into a11 values (1), (?x);
insert into a11 values (?x), (?y);
select * from a11;
select p.a from a11 p, a11 q where p.a = q.a;

-- A row without a condition takes up one with a condition, whichever comes first.
create table a12 (a);
insert into a12 values (1);
insert into a12 values (1) if ?x = 1;
insert into a12 values (2) if ?x = 1;
insert into a12 values (2);
select * from a12;

-- A row that was inserted as false comes in its later place.
create table a13 (a);
insert into a13 values (1) if false;
insert into a13 values (2);
insert into a13 values (1);
select * from a13;

-- Two conditions that together are always true.
create table a14 (a);
insert into a14 values (1) if ?x = 1 and ?y = 1;
insert into a14 values (1) if not (?x = 1 and ?y = 1);
select * from a14;

-- Conditions of NOT, AND and OR, nested, and constants on the left.
create table a15 (a);
insert into a15 values (1) if not (?x = 1 or ?y = 2);
insert into a15 values (2) if not (?x = 1 and ?y = 2);
insert into a15 values (3) if (?x = 1 or ?y = 2) and (?x = 2 or ?y = 1);
insert into a15 values (4) if 1 = ?x and 'a' <> ?y;
insert into a15 values (5) if ?y = ?x;
insert into a15 values (6) if not not not ?x = 1;
select * from a15;

-- Two parts that are the same, and parts that lie in each other.
create table a16 (a);
insert into a16 values (1) if ?x = 1 and ?x = 1;
insert into a16 values (2) if ?x = 1 and (?y = 1 and (?z = 1 and ?x = 1));
insert into a16 values (3) if ?x = 1 or (?y = 1 or (?z = 1 or ?x = 1));
insert into a16 values (4) if (?x = 1 or ?y = 1) and (?y = 1 or ?x = 1);
select * from a16;

-- Two rows under one condition and two under its denial.
create table a17 (a);
insert into a17 values (1), (2) if ?x = 1 and ?y = 1;
insert into a17 values (3), (4) if not (?x = 1 and ?y = 1);
select * from a17;

-- An answer whose conditions name a condition of the table.
create table a18 (a);
insert into a18 values (?x), (?y), (3) if ?z = 1 or ?z = 2;
select a from a18 where a = 3;
select a from a18 where a <> 3;
select p.a, q.a from a18 p, a18 q where p.a = 3;

-- Texts, numbers, and nulls beside each other; a text with a quote and one with a line end.
create table a19 (a, b);
insert into a19 values ('it''s', 1), ('', -1), ('1', ?x), (1, 'x
y') if ?x = 'it''s';
select * from a19;
select b from a19 where a = '1';

-- Insertions into tables of several columns by rows of NULLs.
create table a20 (a, b, c);
insert into a20 values (NULL, 1, NULL), (?x, NULL, 2) if ?x = 1;
select * from a20;
select a, c from a20 where b = 1;

-- What is refused changes nothing, and a row is looked at before the condition.
create table a21 (a);
insert into a21 values (1, 2) if b = 1;
insert into a21 values (1) if a = 1;
insert into a21 values (1) if a21.a = 1;
insert into nowhere values (1) if a = 1;
insert into a21 values (a);
insert into a21 values (1) if;
insert into a21 values (1) where ?x = 1;
insert into a21 values (1) if NULL = 1;
insert into a21 values (9223372036854775808) if ?x = 1;
select * from a21;

-- Questions about rows under conditions.
create table a22 (a);
insert into a22 values (1) if ?x = 1;
insert into a22 values (2) if ?x = 2;
insert into a22 values (3) if ?x <> 1 or ?x <> 2;
possible select a from a22;
certain select a from a22;
possible select p.a, q.a from a22 p, a22 q where p.a <> q.a;
certain select p.a from a22 p, a22 q where q.a = 3;

-- A table that stays empty.
create table a23 (a);
insert into a23 values (1) if false;
select * from a23;
select a from a22 except select a from a23;
select a from a22 intersect select a from a23;
