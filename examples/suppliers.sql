-- Suppliers and parts. Two boxes came without the sender's name, and one more came later.

create table supplier (name, city);
insert into supplier values ('Smith', 'London'), ('Jones', 'Paris');
-- Blake has moved, and nobody knows where to.
insert into supplier values ('Blake', ?moved);

create table supply (supplier, part, quantity);
-- Smith sent 300 nuts, and Jones sent 200 bolts.
insert into supply values ('Smith', 'nut', 300), ('Jones', 'bolt', 200);
-- The two boxes came in one van. So it is one unknown supplier who sent 400 bolts and 100 screws.
insert into supply values (?sender, 'bolt', 400), (?sender, 'screw', 100);
-- The sender of the last box may be the same or another one, and nobody counted the screws in it.
insert into supply values (?other, 'screw', NULL);

-- The table as it stands.
select * from supply;
-- What did Smith send? The nuts. Both boxes of the van, if he is their sender. The last box, if he sent that.
select * from supply where supplier = 'Smith';
-- Who sent screws? The part of every box is known, so no row has a condition.
select * from supply where part = 'screw';
-- What did the sender of the van send, whoever that is? Both boxes, and each other row if its supplier is the same.
select * from supply where supplier = ?sender;
-- Who is in Paris? Jones, and Blake if that is where he moved.
select * from supplier where city = 'Paris';
-- From which cities did bolts come? From Paris, and from that of the van's sender.
select city from supplier, supply where name = supplier and part = 'bolt';
-- Who sent nothing? It depends on who sent the boxes.
select name from supplier except select supplier from supply;
-- Who may have sent nothing? Blake: the world behind his name is one in which he sent no box.
possible select name from supplier except select supplier from supply;
-- Who sent nothing in any case? Nobody.
certain select name from supplier except select supplier from supply;
-- Which parts may have come from Blake? Bolts and screws, if he sent a box. He sent no nuts.
possible select part from supply where supplier = 'Blake';
-- From which cities did bolts come in any case? From Paris, where Jones is.
certain select city from supplier, supply where name = supplier and part = 'bolt';
-- What did the sender of the van send in any case? Bolts and screws: they were in the van. Nuts only if he is Smith.
certain select part from supply where supplier = ?sender;
possible select part from supply where supplier = ?sender;

-- The papers of the van turn up: its sender was Smith or Jones.
assert ?sender = 'Smith' or ?sender = 'Jones';
-- So Blake sent nothing, unless the last box is his.
select name from supplier except select supplier from supply;
-- If all that Smith sent is taken away, whichever boxes that are, what is left? The transaction is given up again.
begin;
delete from supply where supplier = 'Smith';
select * from supply;
rollback;
-- The sender of the van calls: he is not Smith, and 500 nuts are on the way. Both are written down, or neither.
begin;
assert ?sender <> 'Smith';
insert into supply values (?sender, 'nut', 500);
commit;
-- What did Jones send in any case? The boxes of the van are his, and so are the nuts.
certain select part, quantity from supply where supplier = 'Jones';
-- What may Smith have sent? His nuts, and the last box if that is his. The van is not.
possible select part, quantity from supply where supplier = 'Smith';
