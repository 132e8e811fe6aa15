-- The south office moves its cards. The torn name is the same one: ?torn is one unknown value in both files.
create table tax (number, name);
insert into tax values (120, 'Bob'), (310, ?torn);
-- Number 310 is not Eve's. Whose is it, as far as is known?
begin;
assert ?torn <> 'Eve';
certain select name from tax where number = 310;
commit;
-- Once more, in case that the commit was refused. To do it twice does no harm.
begin;
assert ?torn <> 'Eve';
certain select name from tax where number = 310;
commit;
