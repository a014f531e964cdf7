"""psycopg2 PORT: parameters, types, server-side cursors, COPY, errors, transactions, cancel."""
import io, sys, threading, time
from typing import Any, List, Optional, Tuple

import psycopg2, psycopg2.extras
from cases import case

PORT = int(sys.argv[1])
SLOW = "SELECT count(*) FROM mid a, mid b, people c, people d, people e WHERE a.id + b.id = 5"


def connected(autocommit: bool = True) -> Any:
    """A connection."""
    made = psycopg2.connect(host="127.0.0.1", port=PORT, user="admin", dbname="fedq")
    made.autocommit = autocommit
    return made


one = connected()


def asked(sql: str, values: Any = None, by: Optional[Any] = None) -> Any:
    """The rows of a query, or the status of a write."""
    cursor = (by or one).cursor()
    cursor.execute(sql, values)
    return cursor.fetchall() if cursor.description else cursor.statusmessage


def named() -> List[Tuple[int, str]]:
    """Rows of a server-side cursor, two at a time."""
    with connected(False) as made, made.cursor("named") as cursor:
        cursor.itersize = 2
        cursor.execute("SELECT id, name FROM parts ORDER BY id")
        return list(cursor)


def described() -> List[Tuple[str, int]]:
    """Names and types of columns."""
    cursor = one.cursor()
    cursor.execute("SELECT id, name, live FROM parts")
    return [(it.name, it.type_code) for it in cursor.description]


def copied(sql: str) -> str:
    """What COPY writes."""
    made = io.StringIO()
    one.cursor().copy_expert(sql, made)
    return made.getvalue()


def many() -> Any:
    """Rows by executemany and execute_values, counted and taken away again."""
    cursor = one.cursor()
    cursor.executemany("INSERT INTO orders VALUES (%s, %s, %s)", [(60, 1, None), (61, 2, -2)])
    psycopg2.extras.execute_values(cursor, "INSERT INTO orders (no, part, n) VALUES %s", [(62, 1, 1), (63, 2, 2)])
    rows = asked("SELECT no, part, n FROM orders WHERE no >= 60 ORDER BY no")
    return rows, asked("DELETE FROM orders WHERE no >= 60")


def cancelled() -> Any:
    """Cancel of a statement at work; the connection goes on."""
    made = connected()
    threading.Timer(0.3, made.cancel).start()
    begin = time.monotonic()
    try:
        asked(SLOW, by=made)
        return "was not cancelled"
    except psycopg2.errors.QueryCanceled:
        return time.monotonic() - begin < 2, asked("SELECT 1", by=made)


def of_two() -> Any:
    """One client holds a cursor; the other's write is refused, and done once the first has left."""
    holder, other = connected(), connected()
    asked("DECLARE c CURSOR FOR SELECT no FROM orders", by=holder)
    try:
        asked("UPDATE orders SET n = n WHERE no = 10", by=other)
        code = "done"
    except psycopg2.errors.ObjectInUse as fault:
        code = fault.pgcode
    holder.close()
    time.sleep(0.3)
    return code, asked("UPDATE orders SET n = n WHERE no = 10", by=other)


def in_transaction() -> Any:
    """A read in a transaction, a write that is refused, and what follows a rollback."""
    made = connected(False)
    rows = asked("SELECT id FROM parts WHERE id = 1", by=made)
    try:
        asked("INSERT INTO orders VALUES (50, 1, 1)", by=made)
        code = "done"
    except psycopg2.errors.FeatureNotSupported as fault:
        code = fault.pgcode
    made.rollback()
    return rows, code, asked("SELECT count(*) FROM orders WHERE no = 50", by=made)


case("rows", lambda: asked("SELECT * FROM parts ORDER BY id"), [(1, "bolt", 10, True), (2, "nut", None, True), (3, None, 0, False)])
case("columns", described, [("id", 20), ("name", 25), ("live", 16)])
case(
    "parameters",
    lambda: asked("SELECT name FROM parts WHERE id = %s OR name = %s OR live = %s", (1, "nu't\\n", False)),
    [("bolt",), (None,)],
)
case("parameters by name", lambda: asked("SELECT name FROM parts WHERE id = %(id)s", {"id": 2}), [("nut",)])
case("a list", lambda: asked("SELECT id FROM parts WHERE id IN %s ORDER BY id", ((1, 3),)), [(1,), (3,)])
case("no injection", lambda: asked("SELECT id FROM parts WHERE name = %s", ("x' OR TRUE --",)), [])
case(
    "a join of three kinds",
    lambda: asked(
        "SELECT p.name, s.amount, t.active FROM people p JOIN sales s ON s.who = p.id JOIN staff t ON t.id = p.id ORDER BY amount"
    ),
    [("Ada", 4, True), ("Bo, Jr.", 5, False), ("Ada", 6, True)],
)
case("a text of LF and TAB", lambda: asked("SELECT tags FROM sales WHERE amount = 5"), [("a\nb\tc\\d",)])
case("a server-side cursor", named, [(1, "bolt"), (2, "nut"), (3, None)])
case(
    "COPY as CSV",
    lambda: copied("COPY (SELECT id, name FROM people ORDER BY id) TO STDOUT WITH (FORMAT csv, HEADER)"),
    'id,name\n1,Ada\n2,"Bo, Jr."\n3,""\n',
)
case("COPY as text", lambda: copied("COPY parts TO STDOUT"), "1\tbolt\t10\tt\n2\tnut\t\\N\tt\n3\t\\N\t0\tf\n")
case("many rows", many, ([(60, 1, None), (61, 2, -2), (62, 1, 1), (63, 2, 2)], "DELETE 4"))
case("an error", lambda: asked("SELECT nope FROM parts"), "UndefinedColumn 42703")
case("after it", lambda: asked("SELECT 1"), [(1,)])
case("a transaction", in_transaction, ([(1,)], "0A000", [(0,)]))
case("cancel", cancelled, (True, [(1,)]))
case("two clients", of_two, ("55006", "UPDATE 1"))
