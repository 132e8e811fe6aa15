-- Updates that are refused, and those that look alike and are not.
create table t (a, b);
create table key (key, set_a);
insert into t values (1, 2);

-- The first that counts: the table, the assignments from the left, a column set twice, the condition.
update none set a = 1, a = 2 where c = 3;
update t set a = 1, c = 2, a = 3 where d = 4;
update t set c = d;
update t set a = c, a = d;
update t set a = none.a, a = 2;
update t set a = 1, b = 2, a = 3 where c = 4;
update t set a = 1, a = 1;
update t set a = 1 where c = 4;
update t set a = 1 where none.a = 4;
update t set a = none.b where none.a = 4;

-- NULL is not set, nor what is no term.
update t set a = null;
update t set a = 1, b = null where a = 1;
update t set a = not b;
update t set a = true;
update t set a = (1);
update t set a = (select b from t);

-- Assignments.
update t;
update t set;
update t set a;
update t set a =;
update t set a = 1,;
update t set , a = 1;
update t set a = 1 b = 2;
update t set a = 1 and b = 2;
update t set (a, b) = (1, 2);
update t set t.a = 1;
update t set a <> 1;
update t set a == 1;
update t set 'a' = 1;
update t set ?a = 1;
update t set set = 1;

-- Around them.
update t a = 1;
update t p set a = 1;
update t as p set a = 1;
update set a = 1;
update t set a = 1 where;
update t set a = 1 if a = 2;
update t set a = 1 from t;
update t set a = 1 where a = 1 where b = 2;
update t, key set a = 1;
update (select * from t) set a = 1;
update into t set a = 1;
update table t set a = 1;
update t set a = 99999999999999999999;
update t set a = 1; update;
possible update t set a = 1;

-- The words of an update are keywords, so no table and no column has them for a name.
create table update (a);
create table t2 (set);
select a from t as update;

-- A table and a column that are named as the word of another form.
update key set key = 1;
insert into key values (1, 2);
update key set key = set_a, set_a = key.key where key.key = 1;
select * from key;

-- No columns but those of the table are seen, and it has no other name.
update t set a = key.key;
update t set a = 1 where key.key = 1;

-- A refused update changes nothing.
select * from t;
