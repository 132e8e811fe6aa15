-- 188 texts: each line of the grammar, each token, each refusal but Full and Memory, and each pair of refusals of the text
-- or of names whose order is stated. texts.out has what each is answered.

-- Tables and rows.
create table t (a, b);
CREATE TABLE u (b,c);
insert into t values (1, ?x), (?y, 'it''s'), (-7, NULL);
select * from t;
select * from u;
select * from t where a = 1;
select * from t where b = 'it''s';
select * from t where a = ?z;
select distinct * from t where t.a = 1;
select * from t as s where s.a = -7;
select * from t s where a = 1;

-- A refused statement draws no null.
insert into t values (NULL);
insert into u values (NULL, NULL), (NULL, 2);
select * from u;

-- Tokens: words, numbers, texts, nulls, symbols, blanks and comments.
create table _w2 (a_1, _, z9Z);
insert into _w2 values (007, -0, -007);
select * from _w2;
create table n (a);
insert into n values (9223372036854775807), (-9223372036854775808);
insert into n values (9223372036854775808);
insert into n values (-9223372036854775809);
insert into n values (99999999999999999999);
select * from n where a = 9223372036854775807;
create table w (a);
insert into w values (''), ('a;b'), ('-- c'), ('é'), ('''');
select * from w;
select * from w where a = '1';
select * from n where a = ?SELECT;
select*from n--all of it
	where
a=?_1;
assert 1 != 2;
assert 1 <> 2;
assert 1 = 2--3
;
select * from n -- a ; and a ' stand in it
 where a = -9223372036854775808;
assert 1 = 2 -- no end here = 3
;

-- Faults of the text: the leftmost, then the grammar.
select # from t;
select * from t where a = -;
select * from t where a = - 1;
select * from t where a = ?;
select * from t where a = ? x;
select * from t where a < 1;
select * from t where a > 1;
select * from t where a ! = 1;
select * from t where a = é;
select * from "t";
assert 99999999999999999999 = #;
assert # = 99999999999999999999;
please 99999999999999999999;
assert 5-3 = 2;
insert into nosuch values (99999999999999999999);

-- Depth: behind the faults of the text, before the grammar and the names.
assert (((((((((((((((((((((((((((((((((((((((((((((((((((((((((((((((((#;
assert (((((((((((((((((((((((((((((((((((((((((((((((((((((((((((((((((99999999999999999999;
assert (((((((((((((((((((((((((((((((((((((((((((((((((((((((((((((((((;
assert (((((((((((((((((((((((((((((((((((((((((((((((((((((((((((((((((z = 1)))))))))))))))))))))))))))))))))))))))))))))))))))))))))))))))));
((((((((((((((((((((((((((((((((((((((((((((((((((((((((((((((((select * from t))))))))))))))))))))))))))))))))))))))))))))))))))))))))))))))));
(((((((((((((((((((((((((((((((((((((((((((((((((((((((((((((((((select * from t)))))))))))))))))))))))))))))))))))))))))))))))))))))))))))))))));

-- Texts that no line of the grammar spells.
please;
create table select (a);
create table v ();
create table v (a,);
create table v (a b);
create table v (a) t;
create v (a);
insert into t (1, 2);
insert into t values;
insert into t values (1, 2) (3, 4);
insert into t values (1, a);
insert into t values (1, 2) if;
insert into t values (1, 2) where 1 = 1;
delete t;
delete from t where;
assert;
assert 1;
assert 1 = NULL;
assert (1 = 1;
assert 1 = 1);
assert 1 = 1 and;
assert not;
select from t;
select a, * from t;
select 1 from t;
select a b from t;
select t.* from t;
select * from;
select * from t join u;
select * from t inner u on 1 = 1;
select * from t union;
select * from t union all select * from t;
(select * from t;
possible certain select * from t;
begin work;
select * from t t1, t t2, t t3, t t4, t t5, t t6, t t7, t t8, t t9, t t10, t t11, t t12, t t13, t t14, t t15, t t16, nosuch;
create table where (a);
create table null (a);
create table v (union);

-- Creations: that the name is new, then that the columns differ.
create table t (c);
create table t (c, c);
create table v (c, c);
create table v (c, d, C);

-- Insertions of rows: the table, the counts, the condition, which sees no table.
insert into nosuch values (1);
insert into nosuch values (1) if z = 1;
insert into t values (1, 2, 3);
insert into t values (1, 2), (3);
insert into t values (1) if z = 1;
insert into t values (1, 2) if a = 1;
insert into t values (1, 2) if t.a = 1;
insert into t values (1, 2) if ?x = 1;

-- Insertions of queries: the table, the query, the count.
insert into nosuch select z from t;
insert into t select z from t;
insert into t select a from nosuch;
insert into t select a from t;
insert into t select b, a from t;
insert into t (select a from t);
insert into t (select * from t);

-- Deletions: the table, then the condition, which sees the table.
delete from nosuch where z = 1;
delete from t where z = 1;
delete from t where u.b = 1;
delete from t where t.a = 1 or b = 2;
delete from t;

-- Assertions, which see no table.
assert a = 1;
assert ?x = 1 or (true and not false);
assert not not 1 = 1;

-- A SELECT: its tables, that they are seen under different names, its items, its conditions.
select * from nosuch;
select z from t, nosuch;
select z from t, t, nosuch;
select * from t, t;
select z from t s, u s;
select * from t u, u;
select z from t;
select t.z from t;
select t.a from t s;
select u.a from t;
select b from t, u;
select z, b from t, u;
select b, z from t, u;
select b from t, u where z = 1;
select z from t, u where b = 1;
select a from t, u where b = z;
select a from t join u on b = 1 where z = 1;
select a from t join u on z = 1 where b = 1;
select * from t where z = 1;
select * from nosuch where z = 1;
select * from t, t where z = 1;
select * from t, u where z = b;
select * from t, u where b = z;
select * from t, u where z = 1 and b = 1;
select * from t, u where b = 1 or z = 1;
select * from t, u where not b = 1 and z = 1;
select * from t join u on b = 1 join n on z = 1;
select * from t join u on z = 1 join n on b = 1;
select * from t join u on n.a = 1, n;
select * from t t1, t t2, t t3, t t4, t t5, t t6, t t7, t t8, t t9, t t10, t t11, t t12, t t13, t t14, t t15, t t16;

-- Set operators: the left side, the right side, then the counts.
select z from t union select b from t, u;
select b from t, u except select z from t;
select a from t intersect select z, b from t;
select a from t union select a, b from t;
select a from t except select * from t;
select a from t intersect select a, b from t;
select a, b from t union select a from t intersect select z from t;
select z from t union select a, b from t;
select a from t union select a, b from t except select z from t;

-- Statements without a fault, after the deletions.
select a from t;
select a, b from t;
select b as a, t.a as c from t;
select * from t, u;
select * from t join u on t.b = u.b;
select * from t inner join u as v on t.b = v.b, n;
(select * from t);
select * from t where (a = 1);
select * from t where 1 = a;
select * from t where a <> 1;
select * from t where a = b;
select * from t where a = 1 and b = 2;
select * from t where a = 1 or b = 2;
select * from t where not a = 1;
select * from t where true;
select * from t union select * from u;
select * from t except (select * from u intersect select * from t);
possible select * from t;
certain select * from t;
begin;
commit;
rollback;

-- A statement draws its nulls also under a condition. A text may have a line end.
insert into t values (NULL, NULL) if ?x = 1;
insert into n values (NULL);
select * from n where a = 1;
insert into w values ('a
b');
select * from w where a = 'a
b';

-- A text without its end takes the rest of the script with it.
select * from t where a = 'open;
