-- Assertions of keys: no two different rows of a table agree in these columns. Each case is taken back at its end.

-- Complete rows: a key, and none.
begin;
create table a2 (a, b);
insert into a2 values (1, 1), (2, 1), (3, 2);
assert key a2 (a);
assert key a2 (b);
assert key a2 (a, b);
assert key a2 (b, a);
select * from a2;
rollback;

-- No row, one row.
begin;
create table a3 (a);
assert key a3 (a);
insert into a3 values (?p3);
assert key a3 (a);
select * from a3;
rollback;

-- Two rows that are one in some world are no breach there.
begin;
create table a4 (a, b);
insert into a4 values (1, 'x'), (?p4, ?q4);
assert key a4 (a);
select * from a4;
assert ?p4 = 1;
certain select * from a4;
create table a5 (a);
insert into a5 values (1), (?p5);
assert key a5 (a);
select * from a5;
certain select * from a5;
rollback;

-- A key of all columns is no news.
begin;
create table a6 (a, b);
insert into a6 values (1, ?p6), (?q6, 2), (?q6, ?p6);
assert key a6 (a, b);
select * from a6;
rollback;

-- Gaps in the key.
begin;
create table a7 (a, b);
insert into a7 values (?p7, 1), (?q7, 2);
assert key a7 (a);
select * from a7;
assert not exists (select p.a from a7 p, a7 q where p.a = q.a and p.b <> q.b);
create table a8 (a, b, c);
insert into a8 values (?p8, 1, 1), (2, ?q8, 2);
assert key a8 (a, b);
select * from a8;
assert key a8 (c);
rollback;

-- Three rows: each pair counts.
begin;
create table a9 (a, b);
insert into a9 values (1, ?p9), (1, ?q9), (1, ?r9);
assert key a9 (a);
select * from a9;
assert ?p9 <> ?q9;
rollback;

-- Conditional rows.
begin;
create table b1 (a, b);
insert into b1 values (1, 1) if ?p = 1;
insert into b1 values (1, 2) if ?q = 1;
assert key b1 (a);
select * from b1;
create table b2 (a, b);
insert into b2 values (1, 1) if ?s = 1;
insert into b2 values (1, 2) if ?s <> 1;
assert key b2 (a);
select * from b2;
rollback;

-- What was deleted does not count.
begin;
create table b4 (a, b);
insert into b4 values (1, 1), (1, 2);
delete from b4 where b = 2;
assert key b4 (a);
delete from b4 where b = ?t4;
insert into b4 values (1, 3);
assert key b4 (a);
select * from b4;
rollback;

-- After an update: the new row and the old one are never there at once.
begin;
create table b5 (a, b);
insert into b5 values (1, ?t5), (2, 2);
update b5 set b = 7 where b = 5;
assert key b5 (a);
select * from b5;
update b5 set a = 2;
assert key b5 (a);
select * from b5;
certain select * from b5;
rollback;

-- Twice, in another order, and by a second column.
begin;
create table b6 (a, b, c);
insert into b6 values (1, 2, ?t6), (1, ?u6, 3);
assert key b6 (a, b);
select * from b6;
assert key b6 (b, a);
assert key b6 (a);
select * from b6;
assert key b6 (c);
certain select * from b6;
rollback;

-- Drawn nulls, texts and numbers.
begin;
create table b8 (a, b);
insert into b8 values (NULL, 1), (NULL, 2), ('1', 3), (1, 4);
assert key b8 (a);
select * from b8;
rollback;

-- A null on both sides of a row.
begin;
create table b9 (a, b);
insert into b9 values (?t9, ?t9), (?t9, 1);
assert key b9 (a);
select * from b9;
rollback;

-- A key after what is known already.
begin;
create table c1 (a, b);
insert into c1 values (?v1, 1), (?w1, 2);
assert ?v1 = ?w1 or ?v1 = 1;
assert key c1 (a);
select * from c1;
assert ?v1 = 2;
certain select a from c1;
rollback;

-- A key that no world has.
begin;
create table c2 (a, b);
insert into c2 values (1, ?v2), (1, ?w2);
assert ?v2 <> ?w2;
assert key c2 (a);
select * from c2;
rollback;

-- Tables and columns that are named key.
begin;
create table key (key, b);
insert into key values (1, ?k), (1, 2);
assert key key (key);
select * from key;
assert key (key);
assert key key;
assert key = 1;
assert key.key = 1;
assert key;
rollback;

-- Names that are refused, in order.
begin;
create table b9 (a, b);
assert key none (a, a);
assert key b9 (c, a, a);
assert key b9 (a, c);
assert key b9 (a, a);
assert key b9 (a, b, a);
rollback;

-- What is no such assertion.
begin;
create table b9 (a, b);
assert key b9;
assert key b9 ();
assert key b9 (a, );
assert key b9 (a b);
assert key b9 (b9.a);
assert key b9 (1);
assert key b9 (a) and 1 = 1;
assert key b9 (a), (b);
assert key b9 b9 (a);
assert key b9 as p (a);
assert not key b9 (a);
assert key (b9) (a);
assert primary key b9 (a);
assert unique b9 (a);
assert key select (a);
assert key b9 (select);
possible assert key b9 (a);
rollback;

-- Letters of both kinds.
begin;
create table b9 (a, b);
insert into b9 values (?x, 1), (1, ?y);
ASSERT KEY B9 (A, B);
Assert Key b9 (B, a);
rollback;
