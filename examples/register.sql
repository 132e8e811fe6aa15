-- A register of customers. Two entries have no name that can be read, and a letter came whose sender is torn off.

create table customer (number, name, city);
insert into customer values (1, 'Ann', 'Bern'), (2, 'Bob', 'Rome'), (2, ?entry, 'Rome'), (3, ?page, 'Oslo');
create table letter (sender, wish);
insert into letter values (?torn, 'a new address');

-- Who wrote the letter? So far it may be anybody.
select number, name from customer, letter where name = sender;
-- It is a customer. That is said of the whole register at once.
assert exists (select * from customer where name = ?torn);
-- A number has one customer, so the second entry of number 2 is Bob, entered twice.
assert key customer (number);
select * from customer;
certain select name from customer where number = 2;
-- Whoever wrote moves to Bonn.
update customer set city = 'Bonn' where name = ?torn;
select * from customer;
-- Who lives in Bonn now, for certain? Nobody that we know. And who may?
certain select name from customer where city = 'Bonn';
possible select number, name from customer where city = 'Bonn';
-- The file of Bern is closed: no customer is left there. So it was Ann who wrote.
assert not exists (select * from customer where city = 'Bern');
certain select number, name from customer where city = 'Bonn';
-- A key says something of the register as it is, and is no rule for later. So this is not refused, and then the key is.
insert into customer values (1, 'Cy', 'Graz');
assert key customer (number);
