-- The numbers of NULL: each is drawn once, from the left, and none is drawn by what is refused.
create table t (a, b);
insert into t values (NULL, 1);
insert into t values (NULL, NULL), (2, NULL);

-- Refused for the text, for a name, for a count, for the condition's names, for a number.
insert into t values (NULL, NULL;
insert into nowhere values (NULL, NULL);
insert into t values (NULL);
insert into t values (NULL, NULL), (NULL);
insert into t values (NULL, NULL) if a = 1;
insert into t values (NULL, 9223372036854775808);
insert into t values (NULL, 2);
select * from t;

-- No statement can write one.
select a from t where a = ?1#1;
insert into t values (?1#1, 1);
assert ?1#1 = 1;
