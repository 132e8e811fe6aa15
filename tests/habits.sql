-- Habits of those who come from other databases, and what is said of them: the remarks stand in habits.err.
create table member (id, name);
create table loan (member, book);
-- Rows without a partner.
select name from member where id not in (select member from loan);
select name from member where not exists (select member from loan where member = id);
select name from member where id <> all (select member from loan);
select name from member where id = any (select member from loan);
delete from member where id in (select member from loan);
delete from member where not exists (select member from loan where member = id);
delete from member using loan where id = loan.member;
delete from member, loan where id = loan.member;
-- Words that are misspelt, or too long.
select id form member;
select id, name form member;
select id from member where nto name = 'Ann';
select id from member where name = 'Ann' adn id = 1;
select id from member where name = 'Ann' unoin select member from loan;
insert into member values (1, 'Ann') iff ?x = 1;
certainly select id from member;
possibly select id from member;
-- Sets.
select top 1 name from member;
select top (1) name from member;
select id from member except all select member from loan;
select id from member intersect all select member from loan;
select id from member union all select member from loan;
select id from member union distinct select member from loan;
select distinct on (id) name from member;
-- Comparisons.
select id from member where name ilike 'a%';
select id from member where name glob 'A*';
select id from member where name similar to 'A%';
select id from member where name is 'Ann';
select id from member where name is true;
select id from member where name = true;
select id from member where name is distinct from 'Ann';
select id from member where name is not distinct from 'Ann';
select id from member where name isnull;
select id from member where null = name;
select id from member where (id, name) = (1, 'Ann');
select id from member where id = 1 or 2;
select id from member where id = 1 and = 2;
select id from member where id = name = 1;
select id from member where id = 1 where name = 'Ann';
select id from member where id in loan;
select id from member where id = 1 xor name = 'Ann';
select id from member where name = 'ann' collate nocase;
select coalesce(name, 'none') from member;
select null from member;
select id into copied from member;
select id from member if id = 1;
select id from member, loan on id = member;
select id from (member);
select id from member order id;
select id from member for share;
-- Cells.
insert into member values (default, 'Ann');
insert into member default values;
insert into member values (true, 'Ann');
insert into member values (2024-01-31, 'Ann');
insert into member values (date '2024-01-31', 'Ann');
insert into member values (now(), 'Ann');
insert into member values (1, 'Ann') when ?x = 1;
insert or ignore into member values (1, 'Ann');
-- Tables.
create temp table t (a);
create or replace table t (a);
create table t (a) without rowid;
create table t select id from member;
-- Certain and possible rows, and assertions.
select certain id from member;
select id from member union possible select member from loan;
insert into member certain select member, book from loan;
assert ?x = 1 if ?y = 2;
?x = 1;
set ?x = 1;
-- What is no statement.
values (1, 'Ann');
merge into member using loan on id = member;
explain select id from member;
show tables;
copy member from 'member.csv';
quit;
.tables;
grab id from member;
-- Long numbers, and a backslash before a quote.
insert into member values (-12345678901234567890123456789, 'Ann');
insert into member values (99999999999999999999-1, 'Ann');
select id from member where name = 'O\'Neill' or name = 'Ann'';
insert into member values (1, 'O\'Neill');
