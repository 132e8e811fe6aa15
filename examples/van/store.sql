-- The store writes down what comes, while the office has the suppliers.
create table supply (supplier, part, quantity);
insert into supply values ('Smith', 'nut', 300), (?sender, 'bolt', 400);
-- There was a second box in the van, and nobody counted the screws in it.
begin;
insert into supply values (?sender, 'screw', NULL);
-- What did the sender of the van send? Both boxes, and the nuts if he is Smith.
select part, quantity from supply where supplier = ?sender;
commit;
-- Which parts may have come from Blake? Those of the van.
possible select part from supply where supplier = 'Blake';
