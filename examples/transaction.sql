-- Two shops keep a stock of bicycles. Nobody wrote down where the red one stands, or which one was sold.
create table stock (shop, bicycle);
insert into stock values ('north', 'blue'), (?shop, 'red');
assert ?shop = 'north' or ?shop = 'south';
assert ?sold = 'blue' or ?sold = 'red';

-- Whichever bicycle was sold leaves the stock, and a green one comes in its place. Both happen, or neither.
begin;
delete from stock where bicycle = ?sold;
insert into stock values ('south', 'green');
-- The transaction sees its own changes.
select * from stock;
commit;

-- A second one is given up, with all that it did.
begin;
delete from stock where shop = 'south';
assert ?sold = 'blue';
select * from stock;
certain select * from stock;
rollback;

-- Which bicycles may stand in the north, and which stand somewhere in any case?
possible select bicycle from stock where shop = 'north';
certain select bicycle from stock;
-- The shop in the north is not empty: if the blue one was sold, the red one is there.
assert ?sold = 'red' or ?shop = 'north';
certain select shop from stock;
