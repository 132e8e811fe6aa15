-- The office has the suppliers, while the store writes down what comes. ?sender is one unknown supplier in both files.
create table supplier (name, city);
insert into supplier values ('Smith', 'London'), ('Jones', 'Paris');
-- The sender of the van gets a card, and nobody knows where he is.
begin;
insert into supplier values (?sender, ?city);
-- Who is in Paris? The transaction sees its own card, and nothing that the store commits meanwhile.
select name from supplier where city = 'Paris';
commit;
-- Who has a card in any case? Smith and Jones. The third one is of somebody whose name is not known.
certain select name from supplier;
