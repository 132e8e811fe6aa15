-- Updates of few rows, which take the places of others, beside those that make the table anew: in each case the same rows
-- in the same order.
create table t (id, a, b);
insert into t values (1, 10, 'x'), (2, 20, 'x'), (3, 30, ?n), (4, 40, 'y'), (5, 50, 'y'), (6, 60, ?m);
-- One row, by a key, by an AND with the key first and last, and one that no row has.
update t set a = 11 where id = 1;
update t set a = 21 where id = 2 and b = 'x';
update t set a = 31 where a = 30 and id = 3;
update t set a = 0 where id = 7;
update t set a = 0 where id = 1 and b = 'y';
select * from t;
-- The row as it was, and another row's cells: the two are one row then.
update t set a = 11 where id = 1;
update t set id = 5, a = 50, b = 'y' where id = 4;
select * from t;
-- Two rows, and two that come to have the same cells.
update t set b = 'z' where id = 1 or id = 2;
update t set id = 8, a = 8, b = 'w' where id = 1 or id = 2;
select * from t;
-- Part of a row, which becomes two, and a row that may be equal to another.
update t set a = 32 where b = 'x';
select * from t;
update t set a = 33 where id = 3 and a = 32;
select * from t;
-- By an OR, by a column, by the row of a gap, and all rows.
update t set a = id where id = 5 or a = 60;
update t set b = ?k where id = 6;
update t set id = a, a = id;
select * from t;
-- Insertions, deletions and updates by turns, also in a transaction that is given up.
insert into t values (1, 1, 'x'), (2, 2, 'x'), (1, 1, 'x');
update t set b = 'v' where id = 2;
delete from t where id = 1;
update t set b = 'u' where id = 2;
insert into t values (2, 2, 'u'), (2, 2, 'v');
begin;
update t set b = 's' where b = 'u';
select * from t where id = 2;
update t set b = 'v' where b = 's';
select * from t where id = 2;
rollback;
select * from t;
begin;
update t set b = 's' where b = 'u';
insert into t values (9, 9, 's');
update t set a = 10 where id = 9;
commit;
select * from t;
