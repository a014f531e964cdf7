-- A session of fedq-shell, as a script on standard input; shell_session.txt has what it prints.
SELECT id, name, qty,
  live -- all of them
FROM parts
ORDER BY id;
SELECT 'a;b -- c' AS x, "id" FROM parts WHERE name = 'it''s;' OR id = 1; SELECT count(*) FROM parts;
select id from parts where id > 9;
SELECT nme FROM parts;
SELECT id::text FROM parts;
SELECT 'é' AS "größe", 1-1 AS b, - 1, 'tab	and \ too' AS t;
;
-- nothing;
SELECT 10 / qty FROM parts;
DROP FOREIGN TABLE parts;
CREATE FOREIGN TABLE "My parts" (id integer, a text, b integer, c boolean)
  SERVER demo OPTIONS (table 'parts');
CREATE FOREIGN TABLE IF NOT EXISTS Orders (x text) SERVER demo OPTIONS (table 'none');
DROP FOREIGN TABLE IF EXISTS nothing;
\d
\?
\x
SELECT 'a
b'; SELECT id FROM parts;
SELECT a FROM "My parts" ORDER BY id
