-- Creations, insertions and selections, each on tables of its own.

create table t1 (a,b);
insert into t1 values (1,?x);
select * from t1 where b = 2;

create table t2 (a, b);
select * from t2;

create table folded (a, b);
insert into folded values (1, 2);
SELECT * FROM FOLDED WHERE B = 2;

create table t4 (a, b);
insert into t4 values (1, 2);
select * from t4 where b = 3;

create table t5 (a, b);
insert into t5 values (1, 2);
select * from t5 where b = ?y;

create table t6 (a, b);
insert into t6 values (1, ?x);
select * from t6 where b = ?x;

create table t7 (a, b);
insert into t7 values (1, ?x);
select * from t7 where b = ?a;

create table t8 (a, b);
insert into t8 values (?x, ?x);
select * from t8 where a = -5;

create table t9 (a);
insert into t9 values (1);
insert into t9 values (2);
insert into t9 values (1);
select * from t9;

create table t10 (a, b);
insert into t10 values (1, 2);
insert into t10 values (1, 2);
select * from t10;

create table t11 (a, b);
insert into t11 values (1, ?x);
insert into t11 values (1, ?y);
select * from t11 where b = 2;

create table t12 (a, b);
insert into t12 values (1, 3);
insert into t12 values (1, ?y);
insert into t12 values (4, 2);
select * from t12 where b = 2;

create table t13 (a, b);
insert into u13 values (1, 2);

create table t14 (a, b);
insert into t14 values (1);

create table t15 (a, b);
insert into t15 values (1, 2, 3);

create table t16 (a, b);
select * from u16;

create table t17 (a, b);
select * from t17 where c = 1;

create table t18 (a, b);
create table t18 (c);

create table t19 (a, b);
create table u19 (c, c);
