-- Suppliers of parts, and a reward for two of them. The worlds of the possible rows are those that the program chose.
create table supplies (part, supplier);
insert into supplies values ('bolt', 'Acme'), ('nut', ?s), ('gear', NULL);
create table reward (supplier);
insert into reward values ('Acme'), ('Bolton');
select part from supplies, reward where supplies.supplier = reward.supplier;
certain select part from supplies, reward where supplies.supplier = reward.supplier;
assert ?s = 'Acme' or ?s = 'Bolton';
certain select part from supplies, reward where supplies.supplier = reward.supplier;
possible select part from supplies, reward where supplies.supplier = reward.supplier;
