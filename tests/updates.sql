-- Updates. Each case has tables of its own.

-- Where it depends on a gap whether a row is replaced, both rows are there, each under its condition.
create table a1 (a, b);
insert into a1 values (1, ?x), (2, 5);
update a1 set b = 7 where b = 5;
select * from a1;
select a from a1 where b = 7;
certain select a from a1 where b <> 5;

-- All new values are taken from the old row.
create table a2 (a, b);
insert into a2 values (1, 2);
update a2 set a = b, b = a;
select * from a2;

-- Three columns in turn.
create table a3 (a, b, c);
insert into a3 values (1, 2, 3), (?p, ?q, ?r);
update a3 set a = b, b = c, c = a;
select * from a3;
update a3 set c = a, a = c;
select * from a3;

-- Without a condition, of all rows.
create table a4 (a, b);
insert into a4 values (1, 1), (2, ?x), (3, 'c');
update a4 set b = 0;
select * from a4;

-- Rows that become equal are one.
create table a5 (a);
insert into a5 values (1), (2), (?x);
update a5 set a = 3;
select * from a5;
certain select * from a5;

-- A row that becomes one that is there already is merged into it, where it stands.
create table a6 (a);
insert into a6 values (1), (2), (3);
update a6 set a = 1 where a = 3;
select * from a6;
update a6 set a = 2 where a = 1;
select * from a6;

-- The same under conditions.
create table a7 (a, b);
insert into a7 values (1, 1), (2, 2) if ?x = 1;
update a7 set a = 1, b = 1 where a = 2;
select * from a7;
create table a8 (a);
insert into a8 values (1) if ?x = 1;
insert into a8 values (2) if ?x = 2;
update a8 set a = 1 where a = 2;
select * from a8;
update a8 set a = 3;
select * from a8;

-- A column set to itself changes nothing, whatever the condition is.
create table a9 (a, b);
insert into a9 values (1, ?x), (?y, 2);
update a9 set a = a;
select * from a9;
update a9 set a = a, b = b where a = 1;
select * from a9;

-- A null is put in: one value for all rows.
create table b1 (a, b);
insert into b1 values (1, 1), (2, 2);
update b1 set b = ?z;
select * from b1;
certain select p.a from b1 p, b1 q where p.b = q.b and p.a = 1 and q.a = 2;

-- The same null as the cell that is there, so that both rows may be one.
create table b2 (a);
insert into b2 values (?x);
update b2 set a = 1 where a = ?y;
select * from b2;
update b2 set a = ?x where a = 1;
select * from b2;

-- A condition that is false of each row, and of no row.
create table b3 (a);
insert into b3 values (1), (?x);
update b3 set a = 9 where false;
update b3 set a = 9 where a <> a;
update b3 set a = 9 where a = 'one' and 1 = 2;
select * from b3;
create table b4 (a);
update b4 set a = 1;
select * from b4;

-- A condition without columns decides of all rows.
create table b5 (a);
insert into b5 values (1), (2);
update b5 set a = 3 where ?x = 1;
select * from b5;
update b5 set a = 4 where ?x <> 1;
select * from b5;

-- Columns of the table in the condition, with its name and without, compared with each other.
create table b6 (a, b);
insert into b6 values (1, 1), (1, 2), (?x, 3);
update b6 set b = 'same' where b6.a = b6.b;
select * from b6;
update b6 set b = b6.a where b = 2 or not (a = 1 or b = 3);
select * from b6;

-- AND, OR and NOT.
create table b7 (a, b);
insert into b7 values (?x, ?y);
update b7 set a = 0 where a = 1 and b = 2;
select * from b7;
update b7 set b = 0 where not (a = 0 or b = 2);
select * from b7;

-- Twice: the second update sees what the first one made.
create table b8 (a);
insert into b8 values (1);
update b8 set a = 2 where a = 1;
update b8 set a = 3 where a = 2;
update b8 set a = 4 where a = 1;
select * from b8;

-- Twice under a gap: a row becomes four, and those that nothing shows are gone.
create table b9 (a, b);
insert into b9 values (?x, ?y);
update b9 set a = 1 where b = 1;
update b9 set b = 2 where a = 2;
select * from b9;
update b9 set a = 0, b = 0;
select * from b9;

-- An update after a deletion, and a deletion after an update.
create table c1 (a, b);
insert into c1 values (1, ?x), (2, ?x), (3, 3);
delete from c1 where b = 1;
update c1 set a = 0 where b = 3;
select * from c1;
delete from c1 where a = 0;
select * from c1;

-- Rows inserted after an update are not changed by it; those of a query are as they were.
create table c2 (a);
create table c3 (a);
insert into c2 values (1);
insert into c3 select a from c2;
update c2 set a = 2;
insert into c2 values (1);
select * from c2;
select * from c3;
insert into c3 select a from c2;
select * from c3;

-- A row that is replaced and inserted again stands where it first stood.
create table c4 (a);
insert into c4 values (1), (2);
update c4 set a = 3 where a = 1;
insert into c4 values (1);
select * from c4;

-- Texts, numbers at both ends, quotes; a number and its digits are two values.
create table c5 (a, b);
insert into c5 values (-9223372036854775808, 'O''Brien'), (9223372036854775807, '7');
update c5 set a = 7, b = a where b = '7';
update c5 set b = 'it''s', a = '7' where b = 'O''Brien';
update c5 set b = '' where a = 7;
select * from c5;

-- A term that names the table, a null with a keyword for its name, and other letters.
create table c6 (a, b);
insert into c6 values (1, 2);
update c6 set a = c6.b, b = ?select where c6.a = 1;
UPDATE C6 SET A = ?X WHERE B = ?Select;
select * from c6;

-- Two nulls that are drawn are two.
create table c7 (a, b);
insert into c7 values (1, NULL), (2, NULL);
update c7 set b = 5 where b = 5;
select * from c7;
update c7 set b = a where a = 1;
select * from c7;

-- Under an assertion the rows are those of the worlds that are left.
create table c8 (a);
insert into c8 values (?u);
assert ?u = 1 or ?u = 2;
update c8 set a = 3 where a = 1;
select * from c8;
certain select * from c8;
assert ?u <> 2;
select * from c8;
certain select * from c8;

-- A table with an update in a query with itself, and in EXCEPT.
create table c9 (a);
insert into c9 values (1), (?v);
update c9 set a = 2 where a = 1;
select p.a, q.a from c9 p, c9 q where p.a = q.a;
select a from c9 except select a from c9 where a = 2;

-- Which rows are possible.
create table d1 (a, b);
insert into d1 values (1, ?w);
update d1 set a = 2 where b = 1;
possible select a from d1;
possible select a from d1 where b = 1;
certain select b from d1 where b <> 1;

-- In the worked order: the set of a row, then the sets of the next one.
create table d2 (a, b);
insert into d2 values (1, ?s), (2, ?s), (3, ?s);
update d2 set b = 0 where b = 1;
select * from d2;
select a from d2 where b = 0;
