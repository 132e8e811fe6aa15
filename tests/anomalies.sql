-- The anomalies by name, as far as one session shows them: its transactions come one after another.
create table account (name, amount);
insert into account values ('a', 10), ('b', 20);

-- Dirty write and dirty read: nothing is left of what was taken back.
begin; delete from account where name = 'a'; insert into account values ('a', 0); rollback;
select * from account;

-- Intermediate read: of two values that a transaction wrote, the last one is there after its commit.
begin;
delete from account where name = 'a'; insert into account values ('a', 11);
delete from account where name = 'a'; insert into account values ('a', 12);
commit;
select * from account;

-- Repeated read and phantom: the same question has the same answer, until the transaction itself changes what it reads.
begin;
select amount from account where name = 'a';
select amount from account where name = 'a';
select * from account where amount = 20;
insert into account values ('c', 20);
select * from account where amount = 20;
rollback;
select * from account where amount = 20;

-- Lost update: the second transaction sees what the first one wrote.
begin; delete from account where name = 'b'; insert into account values ('b', 21); commit;
begin; select amount from account where name = 'b'; delete from account where name = 'b'; insert into account values ('b', 22); commit;
select * from account;

-- Read skew and write skew: both rows are read and one is written, twice.
begin; select * from account; delete from account where name = 'a'; insert into account values ('a', ?a); commit;
begin; select * from account; delete from account where name = 'b'; insert into account values ('b', ?a); commit;
select p.name, q.name from account p, account q where p.amount = q.amount;

-- Read-only: a transaction that only reads commits nothing, and is never refused.
begin; select * from account; certain select name from account; commit;

-- Blind writes: nothing is read, and both are there.
begin; insert into account values ('d', 1); commit;
begin; delete from account where name = 'd'; insert into account values ('e', 1); commit;
select * from account;

-- Two creations of one name, and two assertions that do not go together: the second is refused.
begin; create table once (a); commit;
begin; create table once (b); rollback;
begin; assert ?a = 1; commit;
begin; assert ?a = 2; certain select name from account where amount = 1; commit;
certain select * from account;
