-- Updates in transactions.
create table t (a, b);
insert into t values (1, ?x), (2, 5);

-- What a transaction updates it sees at once, and after ROLLBACK it is as it was.
begin;
update t set b = 7 where b = 5;
select * from t;
update t set b = 8 where b = 7;
select * from t;
rollback;
select * from t;

-- A deletion, an update and an insertion, committed at once.
begin;
delete from t where a = 2;
update t set a = 3;
insert into t values (1, 1);
update t set b = a where a = 1;
select * from t;
commit;
select * from t;

-- A table that the transaction made.
begin;
create table own (a);
update own set a = 1;
insert into own values (1), (?y);
update own set a = 2 where a = ?y;
select * from own;
update own set c = 1;
update own set a = 1, a = 1;
commit;
select * from own;

-- Updates alone read nothing, and a transaction of nothing but one is committed.
begin;
update t set b = 0 where a = 3;
commit;
select * from t;

-- A refused update leaves the transaction open.
begin;
update none set a = 1;
update t set c = 1;
update t set b = 9;
commit;
select * from t;

-- An update between two assertions.
begin;
assert ?y = 1 or ?y = 2;
update own set a = 5 where a = 1;
assert ?y <> 2;
select * from own;
certain select * from own;
commit;

-- A row moved from one table to another.
create table done (a, b);
begin;
insert into done select a, b from t where a = 3;
delete from t where a = 3;
update done set b = 'done';
commit;
select * from t;
select * from done;

-- Many updates of one row.
create table one (a);
insert into one values (0);
begin;
update one set a = 1 where a = 0;
update one set a = 2 where a = 1;
update one set a = 3 where a = 2;
update one set a = 4 where a = 3;
update one set a = 5 where a = 4;
commit;
select * from one;
