PRAGMA page_size = 512;
CREATE TABLE people (id INTEGER PRIMARY KEY, name TEXT, active INTEGER);
INSERT INTO people VALUES (1, 'a' || char(0) || 'b', 1);
CREATE TABLE orders (no INTEGER PRIMARY KEY, part INTEGER, n INTEGER);
