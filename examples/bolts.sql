create table supplier (name, city); create table supply (supplier, part);
insert into supplier values ('Smith', 'London'), ('Jones', 'Paris'), ('Blake', ?moved);
insert into supply values ('Jones', 'bolt'), (?sender, 'bolt');
select city from supplier, supply where name = supplier and part = 'bolt';
