-- Updates, and assertions over tables, that are refused: what the remarks say.
create table t (a, b);
insert into t values (1, 2);
-- Updates that do not fit the grammar.
update;
update t;
update t a = 1;
update t p set a = 1;
update t as p set a = 1;
update t set;
update t set a;
update t set a <> 1;
update t set a =;
update t set a = null;
update t set a = 1, b = null where a = 1;
update t set a = true;
update t set a = (select b from t);
update t set a = 1 from t;
update t set a = 1,;
update t set a = 1 b = 2;
update t set a = 1 and b = 2;
update t set (a, b) = (1, 2);
update t set t.a = 1;
update t set a == 1;
update t set 'a' = 1;
update t set ?a = 1;
update t set set = 1;
update t set a = 1 where;
update t set a = 1 returning a;
-- Words that are misspelt.
updat t set a = 1;
update t sett a = 1;
update t set a = 1 were b = 2;
-- Names.
update none set a = 1;
update t set c = 1;
update t set a = c;
update t set a = u.b;
update t set a = 1 where c = 2;
update t set a = 1, b = 2, a = 3;
-- Assertions over queries.
assert exists;
assert exists select a from t;
assert exists (a = 1);
assert not exists (t);
assert exists (select a from t) and ?x = 1;
assert ?x = 1 and exists (select a from t);
assert not not exists (select a from t);
assert exists (select c from t);
assert not exists (select a from none);
assert not exists (select a from t);
assert exists (select a from t where a = 2);
-- Keys.
assert key t;
assert key (a);
assert unique t (a);
assert key t ();
assert key t (a b);
assert key t (a) and ?x = 1;
assert key none (a);
assert key t (c);
assert key t (a, b, a);
insert into t values (1, ?x);
assert ?x <> 2;
assert key t (a);
-- In a transaction.
begin;
create table u (a, b);
insert into u values (1, ?w), (1, 2);
assert key u (a);
assert ?w = 3;
assert not exists (select a from u);
update u set c = 1;
rollback;
