-- In which beds is penicillin dangerous? The card of bed 3 is torn, and so is the label of a test.

-- The ward's register.
create table bed (number, patient);
insert into bed values (1, 'Anna'), (2, 'Willi'), (3, ?card);
-- The laboratory's register.
create table test (patient, penicillin);
insert into test values ('Anna', 'safe'), ('Wanda', 'allergic'), (?label, 'allergic');

-- In which beds is it dangerous? It depends on both names.
select number from bed join test on bed.patient = test.patient where penicillin = 'allergic';
-- In which beds is it in any case? Nothing is sure yet, so the list is empty.
certain select number from bed join test on bed.patient = test.patient where penicillin = 'allergic';

-- The W on the label can still be read. Two patients have such a name.
assert ?label = 'Wanda' or ?label = 'Willi';
-- Two patients have no other bed.
assert ?card = 'Wanda' or ?card = 'Otto';
-- Which beds have a patient who is not known to be allergic, whatever the names are?
certain select number from bed
    except select number from bed join test on bed.patient = test.patient where penicillin = 'allergic';

-- The laboratory tested Wanda only once.
assert ?label <> 'Wanda';
-- So bed 2 is dangerous in any case. Bed 3 may be: somebody has to ask for the name.
certain select number from bed join test on bed.patient = test.patient where penicillin = 'allergic';
possible select number from bed join test on bed.patient = test.patient where penicillin = 'allergic';
