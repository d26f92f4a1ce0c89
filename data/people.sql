-- What the stored session of pgquery asks for: `tools/with_server --load data/people.sql`.
create type mood as enum ('sad', 'ok', 'happy');
create domain email as text check (value like '%@%');
create table people (id int4 primary key, name text, mood mood, mail email, born date);
insert into people values
    (1, 'Ann', 'happy', 'ann@example.org', '1999-12-31'),
    (2, null, 'sad', null, null),
    (7, E'B\u00e9a\tof \\ "two"\nlines', 'happy', 'b@example.org', '2004-02-29');
