-- What is certain before an assertion, and after it.
create table t (a); create table u (a); insert into t values (1); insert into u values (?x);
certain select a from t except select a from u;
assert ?x = 2;
certain select a from t except select a from u;
