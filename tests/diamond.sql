-- Two ways lead from one null to another. Whichever is taken, the ends are the same.
assert (?p = ?q and ?q = ?r or ?p = ?s and ?s = ?r) and ?p <> ?r;
assert ?p = ?q and ?q = ?r or ?p = ?s and ?s = ?r;
assert ?p <> ?r;
assert ?q <> ?s;
assert ?p = 1;
create table t (a);
insert into t values (?r);
certain select a from t;
certain select a from t where a = ?q;
assert ?q = 2;
create table u (a);
insert into u values (?s);
certain select a from u;
