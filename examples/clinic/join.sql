-- The samples with their patients, as one table.

create table tested (sample, name, born);
insert into tested select sample, name, born from samples join patients on patient = name;
