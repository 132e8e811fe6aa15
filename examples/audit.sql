-- Do the two ledgers agree? In both of them some digits cannot be read.

-- Each payment is a day of the month and an amount, digit by digit.
create table book (day, hundreds, tens, ones);
create table bank (day, hundreds, tens, ones);
-- Our book has 4?7 under spilled ink, 125, and 30? in a fold. The bank has 417, 1?5 with a hole, and 308.
insert into book values (1, 4, ?ink, 7), (2, 1, 2, 5), (3, 3, 0, ?fold);
insert into bank values (1, 4, 1, 7), (2, 1, ?hole, 5), (4, 3, 0, 8);
-- Both copied 2?0 from one receipt with a stain on it. So it is one unknown digit.
insert into book values (5, 2, ?stain, 0);
insert into bank values (5, 2, ?stain, 0);

-- Which payments of the book does the bank not have? The one of day 3 in any case, and the one of day 5 in none.
select * from book except select * from bank;

-- The total of the book ends with 0. So the digit in the fold is 8.
assert ?fold = 8;
-- Which amounts of the book may the bank not have, on whatever day? Not 308: the bank has it one day late.
possible select hundreds, tens, ones from book except select hundreds, tens, ones from bank;

-- In this hand a 1 looks like a 7.
assert ?ink = 1 or ?ink = 7;
-- Both totals are the same. So the hole hides one more than the ink.
assert ?ink = 1 and ?hole = 2 or ?ink = 7 and ?hole = 8;
-- Does that show that the ledgers agree? No: there may be two mistakes that make up for each other.
possible select hundreds, tens, ones from book except select hundreds, tens, ones from bank;

-- The receipt of day 2 turns up: it was 125. Nothing is left that may differ.
assert ?hole = 2;
possible select hundreds, tens, ones from book except select hundreds, tens, ones from bank;
-- Somebody says that it was 427 on day 1. That fits none of what is known.
assert ?ink = 2;
