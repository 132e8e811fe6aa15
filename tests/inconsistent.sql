-- Assertions that no world satisfies. Each is refused, and the worlds are as before.
assert false;
assert not true;
assert 1 = 2;
assert 1 = '1';
assert 'a' = 'A';
assert 1 <> 1;
assert ?x <> ?x;
assert ?x = 1 and ?x = 2;
assert ?x = 1 and ?x <> 1;
assert ?x = 1 and ?x = '1';
assert ?x = 1 and not (?x = 1 or ?y = 2);
assert ?x = ?y and ?y = 1 and ?x = 2;
assert ?x = ?y and ?x <> ?y;
assert ?x = ?y and ?y = ?z and ?z <> ?x;
assert (?x = 1 or ?x = 2) and ?x <> 1 and ?x <> 2;
assert (?x = 1 or ?y = 1) and (?x <> 1 and ?y <> 1);
assert not (?x = ?y or ?x <> ?y);
assert (?x = 1 or ?x = 2) and (?y = 1 or ?y = 2) and (?z = 1 or ?z = 2) and ?x <> ?y and ?y <> ?z and ?x <> ?z;

-- There are further values than those of the script, so three nulls may differ from each other and from these.
begin;
assert ?x <> ?y and ?y <> ?z and ?x <> ?z;
assert ?x <> 1 and ?x <> 2 and ?y <> 1 and ?y <> 2 and ?z <> 1 and ?z <> 2;
rollback;

-- By earlier assertions.
assert ?x = 1 or ?x = 2;
assert ?x = 3;
assert ?x <> 1;
assert ?x = 1;
assert ?x <> 2;
assert ?x = 2;
assert ?y = ?x;
assert ?y = 1;
assert ?y <> ?x;

-- Within a transaction: it stays as it was, with the changes that it had, and goes on.
begin;
assert ?z = ?y;
assert ?z = 1;
assert ?z = 3;
create table t (a);
insert into t values (?z);
assert ?z <> 2;
certain select * from t;
assert ?x = ?z;
commit;
certain select * from t;

-- By an assertion of the transaction alone: after a rollback it is no longer so.
begin;
assert ?w = 1;
assert ?w = 2;
rollback;
assert ?w = 2;
assert ?w = 1;

-- A name is refused first, and the text before it.
assert a = 1 and false;
assert false and;
assert 1 = 2 and ?x = 9223372036854775808;
