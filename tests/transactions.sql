-- Transactions: what they see, what a commit and a rollback leave. Each case has tables of its own.

-- Nothing in it: nothing is committed.
begin; commit;
begin; rollback;
begin; assert; commit;

-- One change, and two.
begin; create table t1 (a); commit;
begin; insert into t1 values (1); insert into t1 values (2); commit;
select * from t1;

-- A table that is created and filled in one transaction.
begin;
create table t2 (a, b);
insert into t2 values (1, ?x), (2, ?y);
insert into t2 select b, a from t2;
delete from t2 where a = 2 and b = ?y;
select * from t2;
commit;
select * from t2;

-- Its own changes are seen at once, in order, and count in the answer's head.
create table t3 (a);
begin;
select * from t3;
insert into t3 values (1);
select * from t3;
delete from t3 where a = 1;
select * from t3;
insert into t3 values (?x);
select * from t3;
possible select a from t3 where a = 2;
certain select p.a, q.a from t3 p, t3 q where p.a <> q.a;
commit;
select * from t3;

-- Taken back: rows, deletions, tables and worlds.
create table t4 (a);
insert into t4 values (1), (?x);
begin;
insert into t4 values (2);
delete from t4 where a = 1;
create table t5 (b);
insert into t5 values (3);
assert ?x = 7;
certain select a from t4 union select b from t5;
rollback;
select * from t4;
select * from t5;
certain select * from t4;
create table t5 (c);
select * from t5;

-- A table that was created in a transaction is there, and one that was taken back is not.
begin; create table t6 (a); create table t6 (b); insert into t6 values (1); commit;
begin; create table t7 (a); rollback;
begin; create table t7 (x, y); insert into t7 values (1); insert into t7 values (1, 2); commit;
select * from t6;
select * from t7;

-- Queries, possible and certain rows add nothing to what is committed.
begin; select * from t6; possible select * from t6; certain select * from t6; commit;

-- Two transactions, one after the other.
create table t8 (a);
begin; insert into t8 values (1) if ?x = 1; commit;
begin; insert into t8 select a from t8; insert into t8 values (1) if ?x = 2; select * from t8; commit;
select * from t8;

-- The same change twice in one transaction.
create table t9 (a);
begin;
insert into t9 values (1), (?x);
insert into t9 values (1), (?x);
delete from t9 where a = ?x;
delete from t9 where a = ?x;
select * from t9;
commit;

-- Changes of several tables, and conditions that they share, in one commit.
create table t10 (a);
create table t11 (a);
begin;
insert into t10 values (1) if ?x = 1 or ?y = 1;
insert into t11 values (2) if ?y = 1 or ?x = 1;
insert into t10 values (3) if (?x = 1 or ?y = 1) and ?z = 1;
delete from t11 where a = 2 and (?x = 1 or ?y = 1);
insert into t11 select a from t10;
select * from t10;
select * from t11;
commit;

-- A change that changes nothing is one all the same.
create table t12 (a);
begin; insert into t12 select a from t12; commit;
begin; delete from t12; commit;
begin; insert into t12 values (1) if false; commit;
begin; assert true; commit;
begin; delete from t12 where false; assert 1 = 1; insert into t12 select a from t12 where a = 1; commit;
select * from t12;

-- A table that is emptied and filled anew.
create table t13 (a);
insert into t13 values (1), (2), (?x);
begin;
delete from t13;
insert into t13 values (2), (1);
select * from t13;
rollback;
select * from t13;
begin;
delete from t13;
insert into t13 values (2), (1);
commit;
select * from t13;

-- Rows are moved from one table to another.
create table t14 (a);
create table t15 (a);
insert into t14 values (1), (2), (?x);
begin;
insert into t15 select a from t14 where a = ?y;
delete from t14 where a = ?y;
select * from t14;
select * from t15;
select a from t14 intersect select a from t15;
possible select a from t14 intersect select a from t15;
commit;
certain select a from t14 union select a from t15;

-- In upper case, and with comments and blanks.
BEGIN -- a comment
;
  Commit
;
begin;;; rollback;

-- Words that SQL has after them are not there.
begin transaction;
begin work;
commit work;
start transaction;
rollback to a;
savepoint a;
end;
begin begin;
