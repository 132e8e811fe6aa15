-- Which texts are statements, and which of these nest too deep.
create table t (a, b, d);
create table u (e, f, g);
create table v (h, i, j);

-- Conditions.
select * from t where true;
select * from t where NOT False;
select * from t where a = 1;
select * from t where 1 = a;
select * from t where t.a <> 'x';
select * from t where ?n != -2;
select * from t where a = 1 and b = 2 and d = 3;
select * from t where a = 1 or b = 2 and d = 3;
select * from t where a = 1 and b = 2 or d = 3;
select * from t where not a = 1 and b = 2;
select * from t where not (a = 1 and b = 2);
select * from t where ((true));
select * from t where not not true;
select * from t where (true).a = 1;
select * from t where a;
select * from t where a =;
select * from t where = 1;
select * from t where a = null;
select * from t where or true;
select * from t where a. = 1;
select * from t where a = b = d;
select * from t where;

-- Statements of each kind.
create table t (a);
create table t (a, b, c);
insert into t values (1);
insert into t values (1, 'x', ?n, null), (-2);
insert into t values (1) if ?n = 2;
insert into t values (a);
insert into t values ();
insert into t values (1),;
insert t values (1);
insert into t select * from u;
insert into t (select * from u);
insert into t;
delete from t;
delete from t where a = 1;
delete from t if a = 1;
assert true;
begin;
commit;
rollback;
possible select * from t;
certain (select * from t);
update t;
insert into t values (1, 'x', ?n);
insert into t values (1, 'x', ?n) if ?n = 2;

-- Queries. Of t, u and v only t has a row, (1, 'x', ?n).
select * from t;
select distinct a from t;
select t.a, b as c, d from t;
select a;
select * from t where a = 1;
select * from t x, u as y, v;
select * from t join u on a = b inner join v as w on true;
select * from t, u join v on true where a = 1 and b = 2;
select * from t as;
select * from t x y;
select * from t where;
select * from t union select * from u except select * from v;
select * from t union select * from u intersect select * from v;
select * from t intersect select * from u union select * from v;
(select * from t union select * from u) intersect select * from v;
();
(select * from t) where true;
select * from (select * from t);

-- How deep: at most 64 parentheses and NOTs, at most 64 set operators, told before the grammar.
((((((((((((((((((((((((((((((((((((((((((((((((((((((((((((((((;
(((((((((((((((((((((((((((((((((((((((((((((((((((((((((((((((((;
not not not not not not not not not not not not not not not not not not not not not not not not not not not not not not not not not not not not not not not not not not not not not not not not not not not not not not not not not not not not not not not not not;
not and not and not and not and not and not and not and not and not and not and not and not and not and not and not and not and not and not and not and not and not and not and not and not and not and not and not and not and not and not and not and not and not and not and not and not and not and not and not and not and not and not and not and not and not and not and not and not and not and not and not and not and not and not and not and not and not and not and not and not and not and not and not and not and not and;
() () () () () () () () () () () () () () () () () () () () () () () () () () () () () () () () () () () () () () () () () () () () () () () () () () () () () () () () () () () () () () () () ();
)))))))))))))))))))))))))))))))))))))))))))))))))))))))))))))))));
union union union union union union union union union union union union union union union union union union union union union union union union union union union union union union union union union union union union union union union union union union union union union union union union union union union union union union union union union union union union union union union union union;
union except intersect union except intersect union except intersect union except intersect union except intersect union except intersect union except intersect union except intersect union except intersect union except intersect union except intersect union except intersect union except intersect union except intersect union except intersect union except intersect union except intersect union except intersect union except intersect union except intersect union except intersect;
union except intersect union except intersect union except intersect union except intersect union except intersect union except intersect union except intersect union except intersect union except intersect union except intersect union except intersect union except intersect union except intersect union except intersect union except intersect union except intersect union except intersect union except intersect union except intersect union except intersect union except intersect union except intersect;
assert ((((((((((((((((((((((((((((((((((((((((((((((((((((((((((((((((1 = 1))))))))))))))))))))))))))))))))))))))))))))))))))))))))))))))));
assert not not not not not not not not not not not not not not not not not not not not not not not not not not not not not not not not not not not not not not not not not not not not not not not not not not not not not not not not not not not not not not not not true;
select a from t union select a from t union select a from t union select a from t union select a from t union select a from t union select a from t union select a from t union select a from t union select a from t union select a from t union select a from t union select a from t union select a from t union select a from t union select a from t union select a from t union select a from t union select a from t union select a from t union select a from t union select a from t union select a from t union select a from t union select a from t union select a from t union select a from t union select a from t union select a from t union select a from t union select a from t union select a from t union select a from t union select a from t union select a from t union select a from t union select a from t union select a from t union select a from t union select a from t union select a from t union select a from t union select a from t union select a from t union select a from t union select a from t union select a from t union select a from t union select a from t union select a from t union select a from t union select a from t union select a from t union select a from t union select a from t union select a from t union select a from t union select a from t union select a from t union select a from t union select a from t union select a from t union select a from t union select a from t union select a from t;
select * from t, t, t, t, t, t, t, t, t, t, t, t, t, t, t, t;
assert (((((((((((((((((((((((((((((((((((((((((((((((((((((((((((((((((1 = 1)))))))))))))))))))))))))))))))))))))))))))))))))))))))))))))))));
assert not not not not not not not not not not not not not not not not not not not not not not not not not not not not not not not not not not not not not not not not not not not not not not not not not not not not not not not not not not not not not not not not not true;
select a from t intersect select a from t intersect select a from t intersect select a from t intersect select a from t intersect select a from t intersect select a from t intersect select a from t intersect select a from t intersect select a from t intersect select a from t intersect select a from t intersect select a from t intersect select a from t intersect select a from t intersect select a from t intersect select a from t intersect select a from t intersect select a from t intersect select a from t intersect select a from t intersect select a from t intersect select a from t intersect select a from t intersect select a from t intersect select a from t intersect select a from t intersect select a from t intersect select a from t intersect select a from t intersect select a from t intersect select a from t intersect select a from t intersect select a from t intersect select a from t intersect select a from t intersect select a from t intersect select a from t intersect select a from t intersect select a from t intersect select a from t intersect select a from t intersect select a from t intersect select a from t intersect select a from t intersect select a from t intersect select a from t intersect select a from t intersect select a from t intersect select a from t intersect select a from t intersect select a from t intersect select a from t intersect select a from t intersect select a from t intersect select a from t intersect select a from t intersect select a from t intersect select a from t intersect select a from t intersect select a from t intersect select a from t intersect select a from t intersect select a from t intersect select a from t intersect select a from t;
select * from t, t, t, t, t, t, t, t, t, t, t, t, t, t, t, t, t;
