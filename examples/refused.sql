-- Statements that are refused. Each leaves the tables as they were.
create table part (number, weight);
-- The name is taken.
create table part (number);
-- There is no such table.
insert into parts values (101, 17);
-- The table has two columns.
insert into part values (101);
-- There is no such column.
select * from part where colour = 1;
-- Two tables are seen under one name.
select * from part, part;
-- Both tables have the column.
select number from part, part as other;
-- The number has no room in 64 bits.
insert into part values (101, 9223372036854775808);
-- This is no statement of the language.
select number as from part;
-- No transaction is open.
commit;
-- One is open already.
begin;
begin;
-- No weight is two numbers.
assert ?weight = 17 and ?weight = 18;
-- Nothing was changed, so there is nothing to commit.
commit;
-- The table is empty still.
select * from part;
