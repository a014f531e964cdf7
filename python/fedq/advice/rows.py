r"""What docs/ERRORS.md says of SQL that this profile lacks, and of limits, as data: the page's tables, and what is shown with a refusal,
are made of it. Texts are Markdown, as the page has them."""
from __future__ import annotations

import re
from typing import Dict, List, NamedTuple


class Row(NamedTuple):
    """A row of the page: what is not here, and what to write instead. `key` is its name in this package."""
    key: str
    here: str
    instead: str

    @property
    def shown(self) -> str:
        """What is not here, without Markdown."""
        return plain(self.here)

    @property
    def hint(self) -> str:
        """What to write instead, without Markdown."""
        return plain(self.instead)


class Limit(NamedTuple):
    """A row of the page's limits: of what, how much, and what is answered above it."""
    key: str
    what: str
    most: str
    above: str


ENTITIES = {"&#124;": "|", "&#96;": "`"}


def plain(text: str) -> str:
    """A text of Markdown as a terminal shows it: no backticks, the text of a link alone."""
    text = re.sub(r"\[([^\]]*)\]\([^)]*\)", r"\1", text)
    text = re.sub(r"`([^`]*)`", lambda found: found[1].replace("\\|", "|"), text)
    text = re.sub(r"</?code>", "", text)
    return re.sub("|".join(ENTITIES), lambda found: ENTITIES[found[0]], text)


LACKING: List[Row] = [
    Row("returning", "INSERT .. RETURNING, ON CONFLICT; UPDATE .. FROM, DELETE .. USING",
        "one request each: the rows by SELECT, the condition in WHERE"),
    Row("default", "DEFAULT in VALUES and SET (42703: it is read as a column), DEFAULT VALUES",
        "leave the column out of the list: it is NULL; or write `NULL`"),
    Row("set row", "`UPDATE t SET (a, b) = (1, 2)`, `SET t.a = 1`, `SET a += 1`, `INSERT INTO t SET a = 1`",
        "`UPDATE t SET a = 1, b = 2`, `SET a = a + 1`, `INSERT INTO t (a) VALUES (1)`"),
    Row("into", "`INSERT t VALUES ..`, `DELETE t`, `DELETE * FROM t`", "`INSERT INTO t VALUES ..`, `DELETE FROM t`"),
    Row("write limit", "ORDER BY and LIMIT of UPDATE and DELETE", "the condition in WHERE"),
    Row("upsert", "REPLACE, UPSERT, MERGE, TRUNCATE", "INSERT, UPDATE and DELETE, one request each; `DELETE FROM t` for TRUNCATE"),
    Row("in query", "`WHERE x IN (SELECT ..)`, EXISTS", "a join: `SELECT DISTINCT p.id FROM parts p JOIN orders o ON o.part = p.id`"),
    Row("not in query", "`NOT IN (SELECT ..)`, `NOT EXISTS (SELECT ..)`",
        "`SELECT p.id FROM parts p LEFT JOIN orders o ON o.part = p.id WHERE o.part IS NULL`"),
    Row("scalar query", "a subquery as a value: `x > (SELECT max(n) FROM orders)`",
        "two requests, the second with the value that the first answers"),
    Row("query in from", "a subquery in FROM, WITH, LATERAL, APPLY, views",
        "one query with joins and groups; or two requests, the second made of the reply "
        "to the first"),
    Row("function in from", "a function or VALUES in FROM (`generate_series`, `unnest`), TABLESAMPLE, ONLY",
        "a foreign table: a CSV file with a row for each value; LIMIT for a few rows"),
    Row("union", "UNION without ALL, EXCEPT, INTERSECT, MINUS",
        "UNION ALL, which keeps equal rows; for EXCEPT and INTERSECT the joins above"),
    Row("core", "ORDER BY or LIMIT in a core, parentheses round a core", "both after the last core, for all rows; else one request each"),
    Row("case", "CASE, IF, `coalesce`, `nullif`, `greatest`, `least` (functions: 42883)", "one request for each case, with WHERE"),
    Row("cast", "`CAST(x AS text)`, `x::text`, `convert`", "nothing is converted; declare the column with the type that it has, or with "
        "`text`"),
    Row("isnull", "`WHERE x ISNULL`, `WHERE x NOTNULL` (after a select item each is its output name)", "`x IS NULL`, `x IS NOT NULL`"),
    Row("is distinct", "`x IS DISTINCT FROM y`, `x <=> y`",
        "`NOT (x = y) OR x IS NULL AND y IS NOT NULL OR x IS NOT NULL AND y IS NULL`"),
    Row("is value", "`x IS 5`, `x IS 'a'`, `x IS NOT IN (1)`", "`x = 5`, `x NOT IN (1)`; IS takes NULL, TRUE, FALSE and UNKNOWN"),
    Row("right join", "RIGHT JOIN", "LEFT JOIN with the sides turned"),
    Row("full join", "FULL JOIN", "a LEFT JOIN, and one with the sides turned that keeps the rows without a partner, as two requests"),
    Row("using", "`JOIN .. USING (c)`, NATURAL JOIN", "`JOIN b ON a.c = b.c`"),
    Row("join without on", "JOIN without ON", "`JOIN b ON a.c = b.c`, or CROSS JOIN for all pairs"),
    Row("join parentheses", "parentheses round a join; SEMI, ANTI and ASOF joins",
        "joins from left to right: `a JOIN b ON .. JOIN c ON ..`"),
    Row("arithmetic in on", "arithmetic in ON (0A000)", "the condition in WHERE, where the join is an inner one"),
    Row("avg", "`avg(x)` (42883)", "`sum(x)`, `count(x)`, and the quotient of both: `sum(x) / count(x)` truncates towards zero"),
    Row("count distinct", "`count(DISTINCT x)`", "`SELECT DISTINCT x`, and count the rows of the reply: `SELECT n` says how many; NULL is "
        "one of them"),
    Row("filter", "`count(*) FILTER (WHERE ..)`", "one request for each condition, with WHERE"),
    Row("over", "OVER, WINDOW, QUALIFY, and window functions such as `row_number()`, `rank()`, `lag(x)`",
        "GROUP BY, or a join of the table with itself: `SELECT a.id, count(*) FROM t a JOIN t b ON b.id <= a.id GROUP BY a.id` numbers "
        "the rows"),
    Row("aggregates", "other aggregates: `stddev`, `string_agg`, `bool_or`, .. (42883), ORDER BY in one (42601)",
        "the functions are `count`, `sum`, `min` and `max`; the client makes others of the rows"),
    Row("group by", "`GROUP BY 1`, `GROUP BY a + 1`, ROLLUP, CUBE, GROUPING SETS",
        "columns alone: `GROUP BY a`; one request for each set of columns"),
    Row("group by output", "`GROUP BY` an output's name (42703)", "the column itself"),
    Row("distinct on", "DISTINCT ON", "GROUP BY with `min` or `max`"),
    Row("fetch first", "`FETCH FIRST 5 ROWS ONLY`, `SELECT TOP 5`, ROWNUM", "`LIMIT 5`"),
    Row("limit comma", "`LIMIT 5, 10`", "`LIMIT 10 OFFSET 5`"),
    Row("limit number", "`LIMIT 2 + 3`, `LIMIT NULL`, `OFFSET` of an expression", "a number, or `LIMIT ALL`"),
    Row("order", "COLLATE, `ORDER BY x USING >`", "`ORDER BY x DESC`; texts are compared by their bytes"),
    Row("equals", "`==`", "`=`"),
    Row("comparisons", "`x =< 5`, `x => 5`, `x ! = 5`, `x NOT = 5`", "`x <= 5`, `x >= 5`, `x <> 5`"),
    Row("operators", "<code>a &#124;&#124; b</code>, `^`, `**`, `//`, `&`, `<<`, `@`",
        "texts are joined by the client; `x * x` for a power; `/` truncates towards zero"),
    Row("json", "`->`, `->>`, `#>`, `@>`", "declare a column for the member, with OPTIONS (`member 'NAME'`)"),
    Row("like", "ILIKE, `~`, `~~`, SIMILAR TO, REGEXP, GLOB, LIKE .. ESCAPE, LIKE ANY",
        "LIKE with a literal pattern, one for each: `x LIKE 'a%' OR x LIKE 'A%'`; the escape is a backslash"),
    Row("like column", "`name LIKE other`", "the pattern is a literal"),
    Row("between symmetric", "BETWEEN SYMMETRIC", "`x BETWEEN a AND b OR x BETWEEN b AND a`"),
    Row("rows", "`(a, b) = (1, 2)`, `ROW(1, 2)`, `(a, b) IN ((1, 2))`", "`a = 1 AND b = 2`"),
    Row("empty list", "`x IN ()`", "`FALSE`; a list has at least one value"),
    Row("any", "`= ANY (..)`, SOME, ALL (42883; with a subquery 42601)", "`IN (..)`, with the values"),
    Row("chain", "`a = b = c`, `1 < x < 5`", "parentheses: `(a = b) = c`; `1 < x AND x < 5`"),
    Row("plus", "`+1`", "`1`"),
    Row("literals", "`1.5`, `1e5`, `0x1F`, `1_000`, dates, times, INTERVAL, `E'..'`, `$$..$$`, `ARRAY[1]`",
        "whole numbers, `'text'` and TRUE and FALSE are all; a decimal or a date of a CSV file may be declared as `text`; a decimal of "
        "JSON lines or of a "
        "database may not"),
    Row("comment", "`/* .. */`, `#`", "`--`, to the end of the text"),
    Row("schema", "`public.parts`, a column of `public.parts.id`", "`parts`, `parts.id`: there are no schemas"),
    Row("quotes", "<code>&#96;id&#96;</code>, `[id]`, `‘text’`", "`\"id\"`, or `id`; `'text'`"),
    Row("blank", "a blank other than space, TAB and line ends, as one that does not break lines", "a space"),
    Row("letters", "a name with other letters than A-Z, as `größe`", "quote it: `\"größe\"`"),
    Row("reserved", "`SELECT 1 from x` with a reserved word as a name", "quote it: `\"from\"`; after AS no quotes are needed"),
    Row("functions", "upper, lower, length, round, now, `current_user` as a value", "none: the client does it (functions: 42883)"),
    Row("dates", "EXTRACT, `date_trunc`, `to_char`, `strftime`, `current_date`, AT TIME ZONE",
        "dates of the form 2025-03-31 are texts that sort by time: `d >= '2025-03-01' AND d < '2025-04-01'`, `d LIKE '2025-03-%'`"),
    Row("text forms", "`substring(x FROM 1 FOR 2)`, `trim(BOTH ..)`, `position('a' IN x)`",
        "LIKE finds texts: `x LIKE '%a%'`; the client cuts them"),
    Row("modulo", "`mod(a, b)`, `div(a, b)`, `abs(a)`, `sign(a)` (42883)", "`a % b`, `a / b`; `x` and `-x`, one request each, with WHERE"),
    Row("placeholder", "`?`, `$1`, `%s`, `:name`, `@name`", "write the value into the text; the Python package and the gateway take "
        "parameters"),
    Row("alias columns", "`alias (a, b)` after an entry", "the names of CREATE FOREIGN TABLE"),
    Row("statements", "EXPLAIN, SHOW, SET, BEGIN, COMMIT, ALTER, GRANT, COPY, CREATE TABLE, CREATE VIEW, CREATE INDEX",
        "none; CREATE FOREIGN TABLE makes a table over a file or a list; each request is done whole or not at all"),
    Row("commands", "`DESCRIBE parts`, SHOW TABLES, USE, `\\d` and `.tables` in a statement",
        "`\\d` and `\\d parts` in fedq-shell; the gateway's catalogue by psql"),
    Row("select into", "SELECT INTO, CREATE TABLE .. AS", "INSERT INTO .. SELECT, into a table that is there"),
    Row("columns", "`varchar(20)`, PRIMARY KEY, DEFAULT, CHECK, REFERENCES in CREATE FOREIGN TABLE",
        "a name, a type without a length, OPTIONS, and NOT NULL: `name text NOT NULL`"),
    Row("options", "`OPTIONS (table = 'parts')`, `OPTIONS (table \"parts\")`, OPTIONS without parentheses", "`OPTIONS (table 'parts')`"),
    Row("drop", "`DROP TABLE t`, `DROP VIEW t`", "`DROP FOREIGN TABLE t`"),
    Row("import", "IMPORT FOREIGN SCHEMA, DROP .. CASCADE, `DROP FOREIGN TABLE a, b`", "each object by itself"),
    Row("cursors", "`FETCH BACKWARD`, `FETCH FIRST`, `FETCH FORWARD 5`, MOVE, SCROLL, WITHOUT HOLD",
        "a cursor goes forward alone: `FETCH 10 FROM c`, or DECLARE it anew"),
    Row("for update", "FOR UPDATE; `TABLE parts`; `VALUES (1)` by itself", "`SELECT * FROM parts`; `SELECT 1`"),
    Row("two statements", "two statements in one request", "one request each; one `;` at the end is allowed"),
]
BY_KEY: Dict[str, Row] = {it.key: it for it in LACKING}

LIMITS: List[Limit] = [
    Limit("request", "a request line", "1,048,576 bytes before its LF", "08P01, and the stream is closed"),
    Limit("session", "a session's number", "1 to 256", "08P01"),
    Limit("user", "a user's name", "63 bytes of `a-z`, digits and `_`", "08P01"),
    Limit("name", "a name, any word of a statement", "63 bytes", "42622"),
    Limit("number", "a whole number", "-9223372036854775808 to 9223372036854775807", "22003"),
    Limit("height", "an expression", "64 high", "54000"),
    Limit("signs", "a text that is no statement", "64 of `( + - * / %` and NOT", "54000 in place of 42601"),
    Limit("entries", "entries of one FROM", "8", "54000"),
    Limit("cores", "cores of a query, joined by UNION ALL", "8", "54000"),
    Limit("groups", "rows that a core groups", "2^62", "54000"),
    Limit("wrapper", "wrappers", "16", "54000"),
    Limit("server", "servers", "64", "54000"),
    Limit("table", "foreign tables", "256", "54000"),
    Limit("mapping", "user mappings", "1,024", "54000"),
    Limit("columns", "columns of a foreign table", "64", "54000"),
    Limit("cursors", "open cursors of a session", "16", "54000"),
    Limit("sources", "sources", "64", "the program does not begin"),
    Limit("rows", "rows of a table of a file or of a database; of a list, after a write", "1,000,000", "54000"),
    Limit("bytes", "a file", "67,108,864 bytes", "54000"),
    Limit("file name", "the name of a file", "255 bytes of `A-Z a-z 0-9 _ . -`", "22P02"),
    Limit("scans", "scans of one source", "2^64", "54000"),
    Limit("pieces", "pieces read from standard input", "4,294,967,295", "`too many reads`"),
]
LIMIT: Dict[str, Limit] = {it.key: it for it in LIMITS}


def lacking_table() -> str:
    """The page's table of SQL that this profile lacks."""
    return "| Not here | Instead |\n|---|---|\n" + "".join(f"| {it.here} | {it.instead} |\n" for it in LACKING)


def limits_table() -> str:
    """The page's table of limits."""
    return "| What | Limit | Above it |\n|---|---|---|\n" + "".join(f"| {it.what} | {it.most} | {it.above} |\n" for it in LIMITS)
