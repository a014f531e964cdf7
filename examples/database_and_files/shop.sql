PRAGMA page_size = 512;
CREATE TABLE people (id INTEGER PRIMARY KEY, name TEXT, active INTEGER);
INSERT INTO people VALUES (1, 'Ada', 1), (2, 'Bo, Jr.', 1), (3, NULL, 0), (4, 'Cy', NULL);
CREATE TABLE orders (id INTEGER PRIMARY KEY, part INTEGER, n INTEGER);
INSERT INTO orders VALUES (9, 1, 3);
