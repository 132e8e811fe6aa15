-- The north office moves its cards, while the south office moves its own.
create table home (name, street);
insert into home values ('Ann', 'Mill Lane'), (?torn, 'Quay');
-- Two women live on the Quay, and the torn card is one of theirs. Who is it, as far as is known?
begin;
assert ?torn = 'Eve' or ?torn = 'Ida';
certain select name from home where street = 'Quay';
commit;
-- Once more, in case that the commit was refused. To do it twice does no harm.
begin;
assert ?torn = 'Eve' or ?torn = 'Ida';
certain select name from home where street = 'Quay';
commit;
