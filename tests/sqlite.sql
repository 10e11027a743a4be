-- The extension, statement by statement: behind each stands the one line that it has to print, or which refusal it has to name.
SELECT uvalinda_number(3, 4, 2, 1); -- 8
SELECT uvalinda_number(3, 4, 0, 0, 2, 1); -- 8
SELECT uvalinda_x(3, 4, 8) || ' ' || uvalinda_y(3, 4, 8); -- 2 1
SELECT uvalinda_x(3, 4, -5, 7, 8) || ' ' || uvalinda_y(3, 4, -5, 7, 8); -- -3 8
SELECT typeof(uvalinda_number(3, 4, '2', '1')); -- integer
SELECT group_concat(first || '-' || last) FROM uvalinda_runs(3, 4, 0, 0, 1, 1); -- 0-1,9-10
SELECT group_concat(first || '-' || last) FROM uvalinda_runs(3, 4, -5, 7, -5, 7, -4, 8); -- 0-1,9-10
SELECT group_concat(first || '-' || last) FROM uvalinda_runs('3', '4', '0', '0', '0000000001', '1') WHERE first > 1; -- 9-10

-- NULL gives NULL, or no rows, whatever the other arguments are.
SELECT uvalinda_number(NULL, 4, 2, 1) IS NULL; -- 1
SELECT uvalinda_number(3, 4, '3E4', NULL) IS NULL; -- 1
SELECT uvalinda_x(0, NULL, 8) IS NULL AND uvalinda_y(3, 4, NULL) IS NULL; -- 1
SELECT uvalinda_x(3, 4, NULL, 0, 8) IS NULL AND uvalinda_x(3, 4, 0, NULL, 8) IS NULL; -- 1
SELECT count(*) FROM uvalinda_runs(3, 4, 0, 0, NULL, '3E4'); -- 0
SELECT count(*) FROM uvalinda_runs(3, 4, NULL, 0, 0, 0, 1, 1); -- 0

-- A TEXT is read as a field of a line is, by its length and not up to a byte 0. A REAL and a BLOB are no numbers.
SELECT uvalinda_number(3, 4, '0000000002', 1); -- 8
SELECT uvalinda_number(3, 4, '3E4', 1); -- refused 5
SELECT uvalinda_number(3, 4, '07', 1); -- refused 5
SELECT uvalinda_number(3, 4, '+2', 1); -- refused 5
SELECT uvalinda_number(3, 4, '2.0', 1); -- refused 5
SELECT uvalinda_number(3, 4, '', 1); -- refused 5
SELECT uvalinda_number(3, 4, '2 1', 1); -- refused 5
SELECT uvalinda_number(3, 4, '2' || char(0), 1); -- refused 5
SELECT uvalinda_number(3, 4, '2' || char(0) || '1', 1); -- refused 5
SELECT uvalinda_number(3, 4, char(0), 1); -- refused 5
SELECT uvalinda_number(3, 4, printf('%.1000c', '2'), 1); -- refused 5
SELECT uvalinda_number(3, 4, 2.0, 1); -- refused 5
SELECT uvalinda_number(3, 4, 2e0, 1); -- refused 5
SELECT uvalinda_number(3, 4, 9e999, 1); -- refused 5
SELECT uvalinda_number(3, 4, x'32', 1); -- refused 5
SELECT uvalinda_number(3, 4, x'', 1); -- refused 5
SELECT uvalinda_x(3.0, 4, 8); -- refused 5
SELECT uvalinda_x(3, 4, '-8'); -- refused 5
SELECT uvalinda_x('-3', 4, 8); -- refused 5
SELECT count(*) FROM uvalinda_runs(3, 4, 0, 0, 1.0, 1); -- refused 5
SELECT count(*) FROM uvalinda_runs(3, 4, 0, 0, x'31', 1); -- refused 5

-- An integer that the library cannot be given is refused where it stands.
SELECT uvalinda_number(3, 4, 4294967298, 1); -- refused 2
SELECT uvalinda_number(3, 4, -9223372036854775808, 9223372036854775807); -- refused 2
SELECT uvalinda_x(3, 4, 4294967304); -- refused 3
SELECT uvalinda_x(3, 4, -1); -- refused 3
SELECT uvalinda_x(4294967299, 4, 8); -- refused 1
SELECT uvalinda_x(3, 4, 4294967296, 0, 8); -- refused 12
SELECT count(*) FROM uvalinda_runs(3, 4, 9223372036854775807, 0, 9223372036854775806, 0); -- refused 10
SELECT count(*) FROM uvalinda_runs(3, 4, 9223372036854775806, 0, 9223372036854775807, 0); -- refused 2
SELECT count(*) FROM uvalinda_runs(3, 4, 0, -9223372036854775807, 0, -9223372036854775808); -- refused 10

-- The rows are asked for in any way.
SELECT count(*) FROM uvalinda_runs(3, 4, 0, 0, 1, 1) WHERE first = 0 OR last = 10; -- 2
SELECT count(*) FROM uvalinda_runs(3, 4, 0, 0, 1, 1) WHERE first < 5 OR first > 9; -- 1
SELECT count(*) FROM uvalinda_runs(3, 4, 0, 0, 1, 1) AS run JOIN (SELECT 10 AS number) AS r ON r.number = run.first OR r.number = run.last; -- 1
SELECT count(*) FROM uvalinda_runs(3, 4, 0, 0, 1, 1) WHERE rowid = 0 OR rowid = 1; -- 2

-- As many arguments as there have to be.
SELECT count(*) FROM uvalinda_runs; -- Runtime error: uvalinda_runs takes w, h, x0, y0, x1, y1, or w, h, ox, oy, x0, y0, x1, y1
SELECT count(*) FROM uvalinda_runs(3, 4, 0, 0, 1); -- Runtime error: uvalinda_runs takes w, h, x0, y0, x1, y1, or w, h, ox, oy, x0, y0, x1, y1
SELECT count(*) FROM uvalinda_runs(3, 4, 0, 0, 1, 1, 1); -- Runtime error: uvalinda_runs takes w, h, x0, y0, x1, y1, or w, h, ox, oy, x0, y0, x1, y1
SELECT count(*) FROM uvalinda_runs WHERE a2 = 4 AND a8 = 1; -- Runtime error: uvalinda_runs takes w, h, x0, y0, x1, y1, or w, h, ox, oy, x0, y0, x1, y1

-- SQLite takes the functions for what they are: the same answer for the same arguments, and no harm in a schema that is not trusted.
PRAGMA trusted_schema = OFF;
CREATE TABLE readings (number INTEGER PRIMARY KEY, reading INTEGER);
INSERT INTO readings SELECT column1, 10 * column1 FROM (VALUES (0), (1), (2), (3), (4), (5), (6), (7), (8), (9), (10), (11));
CREATE INDEX by_x ON readings (uvalinda_x(3, 4, number));
CREATE VIEW shown AS SELECT uvalinda_x(3, 4, number) AS x, uvalinda_y(3, 4, number) AS y, reading FROM readings;
CREATE VIEW corner AS SELECT number FROM uvalinda_runs(3, 4, 0, 0, 1, 1), readings WHERE number BETWEEN first AND last;
SELECT reading FROM shown WHERE x = 2 AND y = 1; -- 80
SELECT group_concat(number) FROM corner; -- 0,1,9,10

-- What SQLite does with a NULL for a key: it numbers the row by itself, or refuses it.
CREATE TABLE numbered (number INTEGER PRIMARY KEY NOT NULL);
INSERT INTO numbered SELECT uvalinda_number(3, 4, NULL, 1);
SELECT number FROM numbered; -- 1
CREATE TABLE unnumbered (number INTEGER PRIMARY KEY) WITHOUT ROWID;
INSERT INTO unnumbered SELECT uvalinda_number(3, 4, NULL, 1); -- Runtime error: NOT NULL constraint failed: unnumbered.number (19)

-- The arguments may come from a table, row by row, and may be asked for again.
CREATE TABLE windows (name TEXT, x0, y0, x1, y1);
INSERT INTO windows VALUES ('one', 0, 0, 0, 0), ('none', NULL, 0, 0, 0), ('text', '0', '0', '1', '1'), ('all', 0, 0, 2, 3), ('two', 0, 0, 1, 1);
SELECT group_concat(name || ':' || first || '-' || last)
    FROM windows, uvalinda_runs(3, 4, x0, y0, x1, y1); -- one:0-0,text:0-1,text:9-10,all:0-11,two:0-1,two:9-10
SELECT group_concat(name || a1 || typeof(a3) || typeof(a7))
    FROM windows, uvalinda_runs(3, 4, x0, y0, x1, y1)
    WHERE a1 = 3 AND first = 0 AND a5 = x1; -- one3integernull,text3textnull,all3integernull,two3integernull
SELECT count(*) FROM uvalinda_runs(3, 4, 0, 0, 1, 1) WHERE a1 = 4; -- 0
INSERT INTO windows VALUES ('outside', 0, 0, 3, 0);
SELECT count(*) FROM windows, uvalinda_runs(3, 4, x0, y0, x1, y1); -- refused 2

-- Every window of a 7 by 4 area: its runs hold exactly the squares that lie in it.
CREATE TABLE squares AS
    WITH RECURSIVE each (number) AS (SELECT 0 UNION ALL SELECT number + 1 FROM each WHERE number < 27)
    SELECT number, uvalinda_x(7, 4, number) AS x, uvalinda_y(7, 4, number) AS y FROM each;
CREATE TABLE every AS SELECT a.x AS x0, a.y AS y0, b.x AS x1, b.y AS y1 FROM squares AS a, squares AS b WHERE a.x <= b.x AND a.y <= b.y;
SELECT count(*) FROM every; -- 280
SELECT count(*) FROM every WHERE
    (SELECT sum(1 << number) FROM squares WHERE x BETWEEN x0 AND x1 AND y BETWEEN y0 AND y1) IS NOT
    (SELECT sum(1 << number) FROM uvalinda_runs(7, 4, x0, y0, x1, y1), squares WHERE number BETWEEN first AND last); -- 0
