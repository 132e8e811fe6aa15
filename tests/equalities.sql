-- What equalities of nulls say together, where no assertion says it alone.
assert ?x = 1;
assert ?y = 2;
assert ?x = ?y;

-- Three nulls of two values, each different from the others; then of three values.
assert (?a = 1 or ?a = 2) and (?b = 1 or ?b = 2) and (?c = 1 or ?c = 2) and ?a <> ?b and ?b <> ?c and ?a <> ?c;
assert (?a = 1 or ?a = 2 or ?a = 3) and (?b = 1 or ?b = 2 or ?b = 3) and (?c = 1 or ?c = 2 or ?c = 3) and
    ?a <> ?b and ?b <> ?c and ?a <> ?c;

-- Two of them leave one value to the third.
create table t (v);
insert into t values (?c);
assert ?a = 1;
certain select v from t where v <> 1;
assert ?b <> ?y;
certain select v from t;
possible select v from t;
possible select v from t where v <> 2;
assert ?c <> 2;
assert ?c = ?x or ?c = ?b;
