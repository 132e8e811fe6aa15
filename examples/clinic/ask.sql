-- Who has had a blood test? The register is in patients.csv, and what the laboratory has in samples.csv.

-- One tube broke, either Wanda's or Willi's.
assert ?broken = 102 or ?broken = 103;
-- Who has had a test in any case?
certain select name from patients join samples on name = patient;
-- Who may have had one? The torn labels may be anybody's.
possible select name from patients join samples on name = patient;

-- The nurse remembers: whose tube broke, of that patient two more were drawn, and their labels were torn off.
assert ?broken = 102 and ?torn = 'Wanda' or ?broken = 103 and ?torn = 'Willi';
-- Nobody knows yet which tube broke. But who has had a test in any case now, and who may have had one?
certain select name from patients join samples on name = patient;
possible select name from patients join samples on name = patient;
-- And who has had none, in any case?
certain select name from patients except select patient from samples;
