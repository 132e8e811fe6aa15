-- Assertions that narrow the worlds, one after another, and what answers say then.
create table t (a);
insert into t values (1), (?x), (?y);
create table u (a);
insert into u values (2), (?z);
select * from t;
certain select * from t;

-- True, plainly or in each world: nothing is narrowed, and each is a commit.
assert true;
assert 1 = 1;
assert ?x = ?x;
assert 'a' <> 'b';
assert ?x = 1 or not ?x = 1;
assert not false;
select * from t;

-- One null of two values.
assert ?x = 2 or ?x = 3;
select * from t;
select a from t where a = 2;
possible select a from t where a = 2;
certain select a from t where a = 2;
possible select a from t where a = 4;
select a from t where a = 4;

-- The same once more, and what follows from it: no other worlds go, and the line of the worlds stays.
assert ?x = 2 or ?x = 3;
assert ?x = 3 or ?x = 2;
select a from t where a = 1;
assert ?x <> 1;
select a from t where a = 1;
certain select a from t where a <> 1;

-- Two nulls that are the same, whatever they are.
assert ?y = ?x;
select * from t;
certain select p.a from t p, t q where p.a = q.a and p.a <> 1;
possible select a from t except select a from u;
certain select a from t except select a from u;

-- A difference.
assert ?z <> 2;
certain select a from u except select a from t;
possible select a from u except select a from t;
select a from u intersect select a from t;
certain select a from u intersect select a from t;

-- One value is left.
assert ?x <> 3;
select * from t;
certain select * from t;
certain select a from t intersect select a from u;
possible select a from u where a = 2;
certain select a from u;

-- Insertions and deletions after assertions.
insert into t values (5) if ?x = 2;
insert into t values (6) if ?x = 3;
delete from t where a = ?y;
select * from t;
certain select * from t;
possible select * from t;

-- What no world satisfies any more is refused, and leaves the worlds as they were.
assert ?y = 3;
assert ?x <> ?y;
assert ?z = ?x;
assert false;
assert ?x = '2';
certain select a from t union select a from u where a = 2;
select a from u where a = 3;
