create table t (a); create table u (a); create table v (a); insert into t values (1); insert into u values (2); insert into v values (?x);
select a from t union select a from u intersect select a from v;
select a from t except select a from v;
create table w (a); insert into w values (NULL), (NULL);
select p.a, q.a from w p, w q where p.a = q.a;
create table z (a); insert into z values (1), (?x);
select p.a from z p, z q where p.a = q.a and not (p.a <> 1);
