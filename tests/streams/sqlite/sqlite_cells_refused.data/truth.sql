PRAGMA page_size = 512;
CREATE TABLE people (id INTEGER PRIMARY KEY, name TEXT, active INTEGER);
INSERT INTO people VALUES (1, 'Ada', 1), (2, 'Bo', 2);
CREATE TABLE orders (id INTEGER PRIMARY KEY, part INTEGER, n INTEGER);
INSERT INTO orders VALUES (1, 'one', 1);
