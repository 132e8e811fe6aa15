-- Joins, EXCEPT and INTERSECT of what is hard to look up by keys: no rows, one key in all rows, keys without a value.
-- What is answered is compared with tests/joins.out, and at every valuation with the complete database (.ci/worlds).
create table e (k, m);
create table s (k, m);
insert into s values (1, 'a'), (1, 'b'), (1, 'c');
create table u (k, m);
insert into u values (1, 'd'), (1, 'e');
create table n (k, m);
insert into n values (?x, 1), (?y, 2);
create table o (k, m);
insert into o values (1, 1), ('1', 2), (?x, 3);

-- A table without rows on either side.
select * from s, e where s.k = e.k;
select * from e, s where e.k = s.k;
select s.m from s, e where s.k = e.k and s.k = 1;
select s.m from s, u, e where s.k = u.k and u.k = e.k;
select * from e p, e q where p.k = q.k;
select * from n, e where n.k = e.k or n.m <> e.m;

-- One key in all rows.
select s.m, u.m from s, u where s.k = u.k;
select s.m from s, u where s.k = u.k;
select s.k from s, u where s.k = u.k;
select p.m, q.m from s p, s q where p.k = q.k and p.m = q.m;

-- A key that is a number here and a text there: 1 and '1' are two values.
select s.m, o.m from s, o where s.k = o.k and s.m = 'a';
select p.k, q.k from o p, o q where p.k = q.k;
select p.k from o p, o q where p.k = q.k and q.k = '1';

-- Gaps alone on both sides.
select p.m, q.m from n p, n q where p.k = q.k;
select p.k from n p, n q where p.k = q.k and p.m = q.m;
select p.k, q.k from n p, n q where p.k <> q.k;

-- One column on both sides of an equality.
select s.m, n.m from s, n where n.k = n.k;
select s.m, n.m from s, n where n.k <> n.k;
select s.m from s, n where s.k = s.k and n.k = n.k and s.m = s.m;

-- A column that is picked twice.
select s.m, s.m, u.m, s.m from s, u where s.k = u.k and u.m = 'd';
select n.k, n.k from s, n where s.k = n.k;
select u.m, u.m from s, u;

-- 64 conjuncts.
select s.m, u.m from s, u where
    s.k = u.k and s.k = 1 and 1 = u.k and s.m <> u.m and s.k = u.k and s.k = 1 and 1 = u.k and
    s.m <> u.m and s.k = u.k and s.k = 1 and 1 = u.k and s.m <> u.m and s.k = u.k and s.k = 1 and
    1 = u.k and s.m <> u.m and s.k = u.k and s.k = 1 and 1 = u.k and s.m <> u.m and s.k = u.k and
    s.k = 1 and 1 = u.k and s.m <> u.m and s.k = u.k and s.k = 1 and 1 = u.k and s.m <> u.m and
    s.k = u.k and s.k = 1 and 1 = u.k and s.m <> u.m and s.k = u.k and s.k = 1 and 1 = u.k and
    s.m <> u.m and s.k = u.k and s.k = 1 and 1 = u.k and s.m <> u.m and s.k = u.k and s.k = 1 and
    1 = u.k and s.m <> u.m and s.k = u.k and s.k = 1 and 1 = u.k and s.m <> u.m and s.k = u.k and
    s.k = 1 and 1 = u.k and s.m <> u.m and s.k = u.k and s.k = 1 and 1 = u.k and s.m <> u.m and
    s.k = u.k and s.k = 1 and 1 = u.k and s.m <> u.m and s.k = u.k and s.k = 1 and 1 = u.k and
    u.m = 'e';
select n.k, o.k from n, o where
    n.k = o.k and n.k = o.k and n.k = o.k and n.k = o.k and n.k = o.k and n.k = o.k and
    n.k = o.k and n.k = o.k and n.k = o.k and n.k = o.k and n.k = o.k and n.k = o.k and
    n.k = o.k and n.k = o.k and n.k = o.k and n.k = o.k and n.k = o.k and n.k = o.k and
    n.k = o.k and n.k = o.k and n.k = o.k and n.k = o.k and n.k = o.k and n.k = o.k and
    n.k = o.k and n.k = o.k and n.k = o.k and n.k = o.k and n.k = o.k and n.k = o.k and
    n.k = o.k and n.k = o.k and n.k = o.k and n.k = o.k and n.k = o.k and n.k = o.k and
    n.k = o.k and n.k = o.k and n.k = o.k and n.k = o.k and n.k = o.k and n.k = o.k and
    n.k = o.k and n.k = o.k and n.k = o.k and n.k = o.k and n.k = o.k and n.k = o.k and
    n.k = o.k and n.k = o.k and n.k = o.k and n.k = o.k and n.k = o.k and n.k = o.k and
    n.k = o.k and n.k = o.k and n.k = o.k and n.k = o.k and n.k = o.k and n.k = o.k and
    n.k = o.k and n.k = o.k and n.k = o.k and n.m = o.m;

-- A NOT of an AND of two equalities goes to no side, and gives no key.
select s.m, u.m from s, u where not (s.k = u.k and s.m = u.m);
select n.m, o.m from n, o where not (n.k = o.k and n.m = o.m);
select n.m, o.m from n, o where n.k <> o.k or n.m <> o.m;
select n.m, o.m from n, o where not (n.k <> o.k or n.m <> o.m);

-- Conditions without columns over 16 tables.
create table one (v);
insert into one values (7);
create table two (v);
insert into two values (1), (2);
select a.v, p.v from two a, one b, one c, one d, one e, one f, one g, one h, one i, one j, one k, one l, one m, one n, one o, two p
    where false;
select a.v, p.v from two a, one b, one c, one d, one e, one f, one g, one h, one i, one j, one k, one l, one m, one n, one o, two p
    where true;
select a.v, p.v from two a, one b, one c, one d, one e, one f, one g, one h, one i, one j, one k, one l, one m, one n, one o, two p
    where ?x = 1;
select a.v, p.v from two a, one b, one c, one d, one e, one f, one g, one h, one i, one j, one k, one l, one m, one n, one o, two p
    where ?x = ?x;
select a.v, p.v from two a, one b, one c, one d, one e, one f, one g, one h, one i, one j, one k, one l, one m, one n, one o, two p
    where a.v = p.v and ?x = 1 and 1 = 1;

-- More than eight rows on the left of INTERSECT and EXCEPT, without gaps, with gaps on the right and on the left.
create table l (a);
insert into l values (1), (2), (3), (4), (5), (6), (7), (8), (9), (10);
create table r (a);
insert into r values (2), (4), ('5'), (12);
create table g (a);
insert into g values (2), (?x), (4);
create table h (a);
insert into h values (1), (2), (3), (4), (5), (6), (7), (8), (9), (?x);
create table z (a);
insert into z values (?x), (?y);
select a from l intersect select a from r;
select a from l except select a from r;
select a from l intersect select a from l;
select a from l except select a from l;
select a from l intersect select k from e;
select a from l except select k from e;
select a from l intersect select a from g;
select a from l except select a from g;
select a from h intersect select a from r;
select a from h except select a from r;
select a from l intersect select a from z;
select a from l except select a from z;
create table c (a, b);
insert into c values (1, 1), (2, 1), (3, 1), (4, 1), (5, 1), (6, 1), (7, 1), (8, 1), (9, ?y), (?x, 1);
create table d (a, b);
insert into d values (1, 1), (2, 2), (3, ?y), (9, 7);
select a, b from c intersect select a, b from d;
select a, b from c except select a, b from d;
