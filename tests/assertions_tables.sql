-- Assertions over queries and keys, committed and in transactions.

-- Rows that agree in the key are equal in the other columns.
create table a1 (a, b);
insert into a1 values (1, ?p1), (1, 2);
assert key a1 (a);
select * from a1;
assert not exists (select * from a1 where a = 3);
assert exists (select * from a1 where b = 9);
certain select * from a1;

-- What was inserted and taken away before does not count; what comes after breaks it, and is not refused.
create table c3 (a);
insert into c3 values (1);
delete from c3;
assert not exists (select * from c3);
insert into c3 values (1);
select * from c3;
assert not exists (select * from c3);

-- It is no standing constraint: a later row may break it.
create table b3 (a, b);
insert into b3 values (1, 1);
assert key b3 (a);
insert into b3 values (1, 2);
select * from b3;
assert key b3 (a);

-- In a transaction: the tables as the transaction has made them.
create table c6 (a);
begin;
insert into c6 values (?r6), (7);
assert exists (select * from c6 where a = 8);
select * from c6;
assert not exists (select * from c6 where a = 7);
delete from c6 where a = 7;
assert not exists (select * from c6 where a = 7);
rollback;
assert not exists (select * from c6);
begin;
insert into c6 values (?r6);
assert exists (select * from c6 where a = 9);
commit;
certain select * from c6;

-- Rows from a query, and an update.
create table c7 (a, b);
create table c8 (a);
insert into c7 values (1, ?r7), (2, ?s7);
insert into c8 select b from c7;
assert exists (select * from c8 where a = 5);
update c7 set b = 6 where b = 5;
assert not exists (select * from c7 where b = 6 and a = 1);
select * from c7;
certain select * from c7;

-- In a transaction.
create table b7 (a, b);
begin;
insert into b7 values (1, ?t7), (1, 4);
assert key b7 (a);
select * from b7;
assert ?t7 = 5;
rollback;
begin;
create table own (a, b);
insert into own values (1, 2), (1, 3);
assert key own (a);
assert key own (b);
assert key own (c);
assert key own (a, a);
commit;
select * from own;
