-- Deletions. In each world the rows go for which the condition holds there. Each case has tables of its own.

-- Everything, with and without a condition.
create table d1 (a);
insert into d1 values (1), (?x), (2) if ?y = 1;
delete from d1;
select * from d1;
insert into d1 values (3);
delete from d1 where true;
select * from d1;
delete from d1;
select * from d1;

-- Nothing.
create table d2 (a);
insert into d2 values (1), (?x);
delete from d2 where false;
delete from d2 where a <> a;
delete from d2 where 1 = 2;
select * from d2;

-- A constant: a row of another constant stays as it is.
create table d3 (a);
insert into d3 values (1), (2), (?x);
delete from d3 where a = 1;
select * from d3;
delete from d3 where 2 = a;
select * from d3;

-- By a null that the table does not have, and by one that it has.
create table d4 (a);
insert into d4 values (1), (?x), (?z);
delete from d4 where a = ?z;
select * from d4;
certain select * from d4;
possible select * from d4;

-- By a condition without a column: all rows go, or none.
create table d5 (a);
insert into d5 values (1), (?x);
delete from d5 where ?y = 1;
select * from d5;
delete from d5 where ?y <> 1;
select * from d5;
possible select * from d5;

-- Two columns, compared with each other and with constants.
create table d6 (a, b);
insert into d6 values (1, 1), (1, ?x), (?x, ?y), (2, 3);
delete from d6 where a = b;
select * from d6;
delete from d6 where a = 1 and b = 2 or a = 2;
select * from d6;

-- With the table's name before the column, and under NOT.
create table d7 (a, b);
insert into d7 values (1, ?x), (?y, 2);
delete from d7 where not (d7.a = 1 or d7.b = 2);
select * from d7;
delete from d7 where not d7.a <> 1;
select * from d7;
delete from d7 where not (a = 1 and b = 2);
select * from d7;

-- One after another.
create table d8 (a);
insert into d8 values (?x);
delete from d8 where a = 1;
delete from d8 where a = 2;
delete from d8 where a = 1;
select * from d8;
delete from d8 where a <> 3;
select * from d8;
possible select * from d8;

-- A row of which nothing is left in any world, though not plainly.
create table d9 (a);
insert into d9 values (?x);
delete from d9 where a = 1;
delete from d9 where a <> 1;
select * from d9;
possible select * from d9;
delete from d9 where a <> 2;
select * from d9;

-- A row under a condition.
create table d10 (a);
insert into d10 values (1), (2) if ?x = 1 or ?y = 1;
delete from d10 where a = ?y;
select * from d10;
delete from d10 where ?x = 1;
select * from d10;

-- Deleted and inserted again: without a condition, and in its old place where something was left of it.
create table d11 (a);
insert into d11 values (1), (2);
delete from d11 where a = ?x;
insert into d11 values (1);
select * from d11;
delete from d11 where a = 1;
insert into d11 values (1);
select * from d11;

-- Inserted again under a condition.
create table d12 (a);
insert into d12 values (1), (2);
delete from d12 where ?x = 1;
insert into d12 values (1) if ?x = 1;
select * from d12;
insert into d12 values (2) if ?y = 1;
select * from d12;

-- Deleted by the very null that the row was inserted with.
create table d13 (a, b);
insert into d13 values (?x, 1), (?y, 2);
delete from d13 where a = ?x;
select * from d13;

-- Rows that become the same.
create table d14 (a, b);
insert into d14 values (1, ?x), (?y, ?x);
delete from d14 where a = 1 and b = 1;
select * from d14;
select b from d14;

-- Columns in the printed history, by position.
create table d15 (first, second, third);
insert into d15 values (1, 2, 3), (?x, ?y, ?z);
delete from d15 where third = first;
delete from d15 where second <> ?x and third = 'c' or first = 1;
delete from d15 where d15.second = 2 and 2 = d15.second;
delete from d15 where third = 3 and third <> 3;
select * from d15;

-- Questions after a deletion.
create table d16 (a);
insert into d16 values (1), (2), (3);
delete from d16 where a = ?x and ?x <> 3;
certain select * from d16;
possible select * from d16;
certain select p.a, q.a from d16 p, d16 q where p.a = 3;
possible select a from d16 where ?x = 1;

-- A table of which another one was filled before.
create table d17 (a);
create table d18 (a);
insert into d17 values (1), (?x);
insert into d18 select a from d17;
delete from d17 where a = 1;
select a from d18 except select a from d17;
select a from d17 except select a from d18;

-- An empty table.
create table d19 (a);
delete from d19;
delete from d19 where a = ?x;
select * from d19;

-- A condition, its denial, and a part that stands twice and so has a name.
create table d20 (a, b);
insert into d20 values (?x, 1), (?y, 2);
delete from d20 where (a = 1 or b = 1) and ?z = 1 or not (a = 1 or b = 1) and ?z = 2;
select * from d20;
delete from d20 where (a = 3 or b = 3) and ?z = 1 or (a = 3 or b = 3) and ?z = 2;
select * from d20;

-- What is refused: the table first, then the columns from the left.
create table d21 (a);
delete from nowhere where b = 1;
delete from d21 where b = 1;
delete from d21 where d20.a = 1;
delete from d21 where a = 1 and c = 2 and d20.a = 3;
delete from d21 where a;
delete from d21 a where a = 1;
delete d21;
delete from d21 where a = NULL;
delete from d21, d20;
delete from d21 where a = 99999999999999999999;
select * from d21;
