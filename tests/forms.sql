-- Forms that are not there and take more than two words to know, keywords as names, the leftmost of several faults, assertions
-- that are false by themselves, and texts that go on in the next line: the remarks stand in forms.err.
create table t (a, b);
select a from t where not exists (select b from t);
select a from t where a in (select b from t);
select a from t where a not in (select b from t);
select a from t minus select b from t;
select a from t minus (select b from t);
-- The leftmost fault.
select a from t group by a having count(*) > 1;
create table u (a int check (a > 0));
select a from t where exists (select b from t) and a < 2;
select a from t order by a + 1;
select count(*) from t where a < 1;
select a from t where a = 1, "b";
-- Keywords as names.
create table u (a, from);
create table u (select, b);
create table u (select a from t);
select a, from, b from t;
select from, a from t;
insert into t values (1, from);
insert into t values (select a, b from t);
insert into t values (1, (select b from t));
-- Forms of more than two words.
select all a from t;
select all * from t;
delete from t x where x.a = 1;
delete from t as x;
select a from main.t;
select a from t, main.u;
select main.t.a from t;
insert into main.t values (1, 2);
insert into t values (1e3, 2);
insert into t values (1, 2) on conflict do nothing;
insert into t values (1, 2) on duplicate key update a = 1;
insert into t values (1, 2) returning a;
insert into t select a, b from t returning a;
delete from t where a = 1 returning a;
delete from t returning *;
-- Assertions that are false by themselves, and one that is not.
assert 1 = 2;
begin;
assert ?p = 1 and ?p = 2;
assert ?p = 1;
assert ?p = 2;
rollback;
assert ?p = 1;
assert ?q = 1 and ?q = 2;
assert ?p = 2;
-- Assertions that are false by themselves, and others that are not, behind assertions about the same nulls.
begin;
assert ?p = 1;
assert ?p = 2 and ?p = 3;
assert ?p <> ?p or ?p = 1 and ?q = ?p and ?q = 2;
assert ?q = ?p and ?q = 2;
assert ?s = 1 and ?s = 2;
assert not (?s = 1 or ?s <> 1);
assert not (?p = 2 or ?p <> 2);
assert ?p = 1 and false;
rollback;
-- Texts that go on in the next line.
insert into t values ('one, 2);
insert into t values ('%', 4);
insert into t values ('O'Neill', 1);
select a from t where a = 'O';
select a + b from t;
merge t set a = 'two
lines';
insert into t values ('O'Neill', 1);
select a from t where a like 'A%';
