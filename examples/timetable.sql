-- Which lesson gets which room, and is one left for the choir? Each room that nobody has chosen yet is a gap.

create table room (name);
insert into room values ('hall'), ('attic'), ('lab');
create table lesson (hour, subject, room);
insert into lesson values (1, 'maths', ?maths), (1, 'art', ?art), (2, 'music', ?music), (2, 'physics', 'lab');

-- Which rooms are free in hour 1?
select name from room except select room from lesson where hour = 1;

-- Art needs light. The other two can be anywhere.
assert ?art = 'hall' or ?art = 'attic';
assert ?maths = 'hall' or ?maths = 'attic' or ?maths = 'lab';
assert ?music = 'hall' or ?music = 'attic' or ?music = 'lab';
-- No two lessons of one hour are in one room.
assert ?maths <> ?art;
assert ?music <> 'lab';
-- Each of these was committed, so there is a timetable. Which ones have maths in the hall? One is shown.
possible select subject from lesson where subject = 'maths' and room = 'hall';

-- Maths and music have one teacher, who stays in the room, and does not climb the stairs to the attic.
assert ?maths = ?music;
assert ?maths <> 'attic';
-- What is settled? Every room.
certain select subject, room from lesson;
-- Which room is free in hour 1?
certain select name from room except select room from lesson where hour = 1;

-- Can the choir have hour 1 in the hall or the attic, and nobody else has to move? There is no such timetable.
begin;
insert into lesson values (1, 'choir', ?choir);
assert ?choir = 'hall' or ?choir = 'attic';
assert ?choir <> ?maths and ?choir <> ?art;
rollback;
