"""psycopg 3 PORT: parameters and results in both forms, server-side cursors, pipelines, COPY, prepared statements, errors, cancel."""
import sys, threading
from typing import Any, List

import psycopg
from cases import case

PORT = int(sys.argv[1])
WORDS = f"host=127.0.0.1 port={PORT} user=admin dbname=fedq"
SLOW = "SELECT count(*) FROM mid a, mid b, people c, people d, people e WHERE a.id + b.id = 5"
one = psycopg.connect(WORDS, autocommit=True)


def asked(sql: str, values: Any = None, **how: Any) -> Any:
    """The rows of a query, or the status of a write."""
    cursor = one.execute(sql, values, **how)
    return cursor.fetchall() if cursor.description else cursor.statusmessage


def named(is_binary: bool) -> List[Any]:
    """Rows of a server-side cursor, two at a time."""
    with psycopg.connect(WORDS) as made, made.cursor("named", binary=is_binary) as cursor:
        cursor.itersize = 2
        cursor.execute("SELECT id, name, live FROM parts WHERE id < %s ORDER BY id", (4,))
        return list(cursor)


def pipeline() -> Any:
    """Two queries sent before the first is answered, and an error between two others."""
    with one.pipeline():
        first, second = one.execute("SELECT count(*) FROM parts"), one.execute("SELECT count(*) FROM people")
        made = first.fetchone(), second.fetchone()
    try:
        with one.pipeline():
            one.execute("SELECT nope FROM parts")
            one.execute("SELECT 1")
    except psycopg.errors.UndefinedColumn:
        return (*made, one.execute("SELECT 1").fetchone())
    return "no error"


def copied() -> List[Any]:
    """The rows of COPY."""
    with one.cursor().copy("COPY sales TO STDOUT") as copy:
        return list(copy.rows())


def many() -> Any:
    """Rows by executemany, counted and taken away again."""
    cursor = one.cursor()
    cursor.executemany("INSERT INTO orders VALUES (%s, %s, %s)", [(70, 1, None), (71, 2, -2), (72, 3, 2**40)])
    return asked("SELECT no, part, n FROM orders WHERE no >= %s ORDER BY no", (70,)), asked("DELETE FROM orders WHERE no >= %s", (70,))


def cancelled() -> Any:
    """Cancel of a statement at work; the connection goes on."""
    threading.Timer(0.3, one.cancel).start()
    try:
        asked(SLOW)
        return "was not cancelled"
    except psycopg.errors.QueryCanceled:
        return asked("SELECT 1")


def transaction() -> Any:
    """A transaction that reads."""
    with psycopg.connect(WORDS) as made, made.transaction():
        return made.execute("SELECT 1").fetchone(), made.execute("SELECT id FROM parts WHERE id = 2").fetchone()


PARTS = [(1, "bolt", True), (2, "nut", True), (3, None, False)]
case("rows", lambda: asked("SELECT id, name, live FROM parts ORDER BY id"), PARTS)
case("binary rows", lambda: asked("SELECT id, name, live FROM parts ORDER BY id", binary=True), PARTS)
case(
    "parameters",
    lambda: asked("SELECT id FROM parts WHERE id = %s OR name = %s OR live = %s ORDER BY id", (1, "nut", False)),
    [(1,), (2,), (3,)],
)
case(
    "binary parameters",
    lambda: asked("SELECT id FROM parts WHERE id = %b OR name = %b OR live = %b ORDER BY id", (1, "nut", False)),
    [(1,), (2,), (3,)],
)
case("a text for an integer", lambda: asked("SELECT name FROM parts WHERE id = %s", ("2",)), [("nut",)])
case("None", lambda: asked("SELECT name FROM parts WHERE id = %s", (None,)), [])
case(
    "large and negative integers",
    lambda: asked("SELECT id FROM parts WHERE qty > %s AND qty < %s ORDER BY id", (-(2**62), 2**62)),
    [(1,), (3,)],
)
case("no injection", lambda: asked("SELECT id FROM parts WHERE name = %s", ("x' OR TRUE --",)), [])
case("a text of LF in a parameter", lambda: asked("SELECT id FROM parts WHERE name = %s", ("a\nb",)), "FeatureNotSupported 0A000")
case(
    "a prepared statement",
    lambda: [asked("SELECT name FROM parts WHERE id = %s", (it,), prepare=True) for it in (1, 2, 1)],
    [[("bolt",)], [("nut",)], [("bolt",)]],
)
case("a server-side cursor", lambda: named(False), PARTS)
case("a binary server-side cursor", lambda: named(True), PARTS)
case("a pipeline", pipeline, ((3,), (3,), (1,)))
case("COPY", copied, [("1", "4", "x"), ("1", "6", None), ("2", "5", "a\nb\tc\\d"), ("9", "-7", "\\N")])
case("many rows", many, ([(70, 1, None), (71, 2, -2), (72, 3, 2**40)], "DELETE 3"))
case("a transaction", transaction, ((1,), (2,)))
case("an error", lambda: asked("SELECT nope FROM parts"), "UndefinedColumn 42703")
case("another", lambda: asked("SELECT * FROM nope"), "UndefinedTable 42P01")
case("cancel", cancelled, [(1,)])
