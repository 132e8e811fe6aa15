-- Keys of tables of 4,096 and of 4,097 rows.
create table digit (n);
insert into digit values (0), (1), (2), (3), (4), (5), (6), (7);
create table k (a, b, c, d);
insert into k select p.n, q.n, r.n, s.n from digit p, digit q, digit r, digit s;
assert key k (a, b, c, d);
assert key k (d, c, b);
assert exists (select a from k where a = 7 and b = 7 and c = 7 and d = 7);
assert not exists (select a from k where a = 8);
insert into k values (8, 8, 8, 8);
assert key k (a, b, c, d);
assert not exists (select p.a from k p, k q where false);
select a from k where b = 8;
