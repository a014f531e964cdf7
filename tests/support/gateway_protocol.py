"""The protocol of the gateway in its usual run: start-up, simple and extended queries, types, errors, COPY, cursors, transactions, users.
Wanted values come from PostgreSQL's documentation of the protocol and its table of SQLSTATEs, and from docs/ERRORS.md."""
import struct
from typing import Iterator, List, Optional, Tuple

from support.cases import Case, refused
from support.gateways import Gateway
from support.wire import (
    BOOL,
    FLUSH,
    GSS_REQUEST,
    INT8,
    SSL_REQUEST,
    SYNC,
    TEXT,
    Client,
    bind,
    describe,
    execute,
    fields_of,
    message,
    parse,
    startup,
    text,
)

PARTS = [("1", "bolt", "10", "t"), ("2", "nut", None, "t"), ("3", None, "0", "f")]
ORDERS = [("10", "1", "4"), ("11", "1", "6"), ("12", "9", "1")]
# A statement, and the SQLSTATE of docs/ERRORS.md.
CODES = [
    ("SELEC 1", "42601"),
    ("SELECT nope FROM parts", "42703"),
    ("SELECT 1 FROM nope", "42P01"),
    ("SELECT id / 0 FROM parts", "22012"),
    ("SELECT id + 9223372036854775807 FROM parts", "22003"),
    ("SELECT avg(id) FROM parts", "42883"),
    ("SELECT id FROM parts WHERE name", "42804"),
    ("SELECT id, count(*) FROM parts", "42803"),
    ("SELECT id FROM parts a, parts b", "42702"),
    ("SELECT 1 FROM parts, parts", "42712"),
    ("FETCH 1 FROM nope", "34000"),
    ("CLOSE nope", "34000"),
    ("DECLARE c CURSOR FOR SELECT id + 1 FROM parts", "0A000"),
    ("CREATE SERVER demo FOREIGN DATA WRAPPER list", "42710"),
    ("DROP SERVER nope", "42704"),
    ("INSERT INTO people VALUES (1, 'x', 'y')", "42501"),
    ("INSERT INTO orders VALUES ('x', 1, 1)", "42804"),
    ("SELECT 1 UNION ALL SELECT 'x'", "42804"),
    ("INSERT INTO staff VALUES (1, 'x', TRUE)", "23505"),
    ("INSERT INTO staff VALUES (NULL, 'x', TRUE)", "23502"),
    (f"SELECT {'a' * 64} FROM parts", "42622"),
    ("UPDATE parts SET id = id, id = id", "42601"),
    ("SELECT name FROM parts WHERE name LIKE 'a\\'", "22025"),
    ("COPY parts FROM STDIN", "0A000"),
    ("COPY parts TO 'parts.csv'", "0A000"),
    ("SHOW no_such_setting", "42704"),
    ("SELECT 'open", "42601"),
    ('SELECT "open', "42601"),
    ("/* open", "42601"),
]


def start_up(gateway: Gateway) -> Iterator[Case]:
    """What a client is answered before its first query."""
    with Client(gateway.port, begins=False) as it:
        it.send(struct.pack("!II", 8, GSS_REQUEST))
        yield "GSSENCRequest", it.take(1), b"N"
        it.send(struct.pack("!II", 8, SSL_REQUEST))
        yield "SSLRequest without a certificate", it.take(1), b"N"
        it.send(startup("admin", application_name="tests", client_encoding="UTF8"))
        it.begin()
        wanted = {"server_encoding": "UTF8", "client_encoding": "UTF8", "integer_datetimes": "on", "standard_conforming_strings": "on"}
        wanted.update(application_name="tests", session_authorization="admin", is_superuser="off")
        yield "parameters", {name: it.settings.get(name) for name in wanted}, wanted
        yield "a version that drivers can read", it.settings["server_version"].split(".")[0].isdigit(), True
        yield "DateStyle", it.settings["DateStyle"].split(",")[0], "ISO"
        yield "a key for cancel", it.key != (0, 0), True
        yield "a query", it.query("SELECT 1").texts, [("1",)]
    with Client(gateway.port, begins=False) as it:
        it.send(startup("admin", version=0x20000))
        kind, body = it.read()
        yield "protocol 2.0", (kind, fields_of(body)["C"]), (b"E", "0A000")
    with Client(gateway.port, begins=False) as it:
        it.send(startup("admin", version=196610, **{"_pq_.nope": "1"}))
        kind, body = it.read()
        wanted_body = struct.pack("!II", 196608, 1) + text("_pq_.nope")
        yield "protocol 3.2 with an option is negotiated down to 3.0", (kind, body in (wanted_body, wanted_body[2:4] + wanted_body)), (
            b"v",
            True,
        )
    yield "no user", refused(lambda: start_without_user(gateway)), "28000"
    for user in ("Bob", "a b", "x" * 64, "ünal"):
        yield f"user {user[:9]}", refused(lambda user=user: gateway.connect(user)), "28000"


def start_without_user(gateway: Gateway) -> Client:
    """A client that names no user."""
    made = Client(gateway.port, begins=False)
    made.send(startup(None))
    made.begin()
    return made


def simple_queries(gateway: Gateway) -> Iterator[Case]:
    """Simple queries: rows, tags, types, several statements, errors."""
    with gateway.connect() as it:
        found = it.query("SELECT * FROM parts ORDER BY id")
        yield "messages", found.kinds, "TDDDCZ"
        yield "columns", [(at.name, at.oid, at.form) for at in found.columns], [
            ("id", INT8, 0),
            ("name", TEXT, 0),
            ("qty", INT8, 0),
            ("live", BOOL, 0),
        ]
        yield "rows", found.texts, PARTS
        yield "tag and status", (found.tags, found.status), (["SELECT 3"], "I")
        yield "no rows still have columns", it.query("SELECT id FROM parts WHERE id = 99").kinds, "TCZ"
        yield "an empty query", it.query("").kinds, "IZ"
        yield "a semicolon alone", it.query(" ; ").kinds, "IZ"
        yield "three statements", it.query("SELECT 1; SELECT 'a;b'; SELECT TRUE;").kinds, "TDCTDCTDCZ"
        found = it.query("SELECT 1; SELECT nope FROM parts; SELECT 2")
        yield "an error drops what comes after it", (found.kinds, found.rows), ("TDCEZ", [(b"1",)])
        yield "a comment", it.query("SELECT id -- ; x\nFROM parts WHERE id = 1; -- end").texts, [("1",)]
        yield "over several lines", it.query("SELECT id\nFROM parts\r\n\tWHERE id = 2").texts, [("2",)]
        yield "a text of quotes", it.query("SELECT 'it''s \"x\" \\' AS a FROM parts LIMIT 1").texts, [('it\'s "x" \\',)]
        yield "an alias in quotes", it.query('SELECT id AS "Two Words" FROM parts LIMIT 1').columns[0].name, "Two Words"
        yield "expressions' types", [
            at.oid for at in it.query("SELECT id + 1, name = 'x', count(*), min(name) FROM parts GROUP BY id, name").columns
        ], [INT8, BOOL, INT8, TEXT]
        joined = (
            "SELECT p.name, s.amount, t.active FROM people p JOIN sales s ON s.who = p.id JOIN staff t ON t.id = p.id ORDER BY s.amount"
        )
        yield "CSV, JSON lines and SQLite joined", it.query(joined).texts, [("Ada", "4", "t"), ("Bo, Jr.", "5", "f"), ("Ada", "6", "t")]
        yield "texts with LF, TAB and \\N", [
            at[0] for at in it.query("SELECT tags FROM sales WHERE amount = 5 OR amount = -7 ORDER BY amount").texts
        ], ["\\N", "a\nb\tc\\d"]
        yield from refused_queries(it)


def refused_queries(it: Client) -> Iterator[Case]:
    """The tags of writes, and statements that are refused."""
    tags = [
        it.query(sql).tags
        for sql in (
            "INSERT INTO orders VALUES (20, 1, 1), (21, NULL, 2)",
            "UPDATE orders SET n = n + 1 WHERE no >= 20",
            "DELETE FROM orders WHERE no >= 20",
        )
    ]
    yield "tags of writes", tags, [["INSERT 0 2"], ["UPDATE 2"], ["DELETE 2"]]
    for sql, code in CODES:
        found = it.query(sql)
        yield sql[:60], (found.code, found.kinds[-2:], found.status), (code, "EZ", "I")
        yield f"{sql[:60]}: the fields of its error", all(found.errors and found.errors[0].get(at) for at in "SVCM"), True


def extended_queries(gateway: Gateway) -> Iterator[Case]:
    """Parse, Bind, Describe, Execute, Close, Flush and Sync."""
    with gateway.connect() as it:
        found = it.prepared("SELECT id, name, live FROM parts WHERE id = $1 OR name = $2 OR live = $3 ORDER BY id", [b"1", b"nut", b"f"])
        yield "messages", found.kinds, "1tT2TDDDCZ"
        yield "types of parameters", found.parameters, [INT8, TEXT, BOOL]
        yield "rows", found.texts, [(at[0], at[1], at[3]) for at in PARTS]
        found = it.prepared("", [])
        yield "an empty statement", found.kinds.replace("t", ""), "1n2nIZ"
        found = it.prepared("INSERT INTO orders VALUES ($1, $2, $3)", [b"30", None, b"-5"])
        yield "a write", (found.kinds, found.parameters, found.tags), ("1tn2nCZ", [INT8] * 3, ["INSERT 0 1"])
        yield "what it wrote", it.query("SELECT part, n FROM orders WHERE no = 30").texts, [(None, "-5")]
        found = it.prepared("UPDATE orders SET n = $1 WHERE no = $2", [b"7", b"30"])
        yield "an UPDATE", (found.parameters, found.tags, found.code), ([INT8, INT8], ["UPDATE 1"], "")
        yield "a DELETE", it.prepared("DELETE FROM orders WHERE no = $1", [b"30"]).tags, ["DELETE 1"]
        it.send(parse("SELECT id FROM parts ORDER BY id") + bind(portal="p") + execute("p", 2) + execute("p", 2) + SYNC)
        yield "a portal of two rows at a time", it.answer().kinds, "12DDsDCZ"
        it.send(parse("SELECT 1") + FLUSH)
        yield "Flush", it.read()[0], b"1"
        it.send(SYNC)
        it.answer()
        it.send(b"".join(parse("SELECT id FROM parts WHERE id = $1") + bind([b"%d" % at]) + execute() + SYNC for at in (1, 2, 3)))
        yield "three in a pipeline", [it.answer().texts for _ in range(3)], [[("1",)], [("2",)], [("3",)]]
        it.send(parse("SELECT nope FROM parts") + bind() + describe() + execute() + parse("SELECT 1") + bind() + execute() + SYNC)
        found = it.answer()
        yield "an error skips all up to Sync", (found.kinds.lstrip("12"), found.code), ("EZ", "42703")
        yield "a statement that is used again", again(it), ["1Z", "2DCZ", "2DCZ", "3Z", "EZ"]
        yield from refused_messages(it)
        yield "the connection goes on", it.query("SELECT 1").texts, [("1",)]


def again(it: Client) -> List[str]:
    """The messages for a named statement: its Parse, two runs, its Close, and a run after that."""
    made = []
    run = bind([b"2"], name="s") + execute() + SYNC
    for data in (parse("SELECT name FROM parts WHERE id = $1", "s") + SYNC, run, run, message(b"C", b"S" + text("s")) + SYNC, run):
        it.send(data)
        made.append(it.answer().kinds)
    return made


def refused_messages(it: Client) -> Iterator[Case]:
    """Messages that PostgreSQL refuses, with their SQLSTATEs."""
    one = parse("SELECT id FROM parts WHERE id = $1")
    twice = parse("SELECT 1", "twice")
    for what, data, code in [
        ("Bind of no statement", bind(name="none"), "26000"),
        ("Execute of no portal", execute("none"), "34000"),
        ("Describe of no statement", describe(b"S", "none"), "26000"),
        ("Describe of no portal", describe(b"P", "none"), "34000"),
        ("a statement's name taken", twice + twice, "42P05"),
        ("a portal's name taken", parse("SELECT 1") + bind(portal="q") + bind(portal="q"), "42P03"),
        ("a parameter too few", one + bind(), "08P01"),
        ("a parameter too many", one + bind([b"1", b"2"]), "08P01"),
        ("two statements in one Parse", parse("SELECT 1; SELECT 2"), "42601"),
        ("a message cut short", message(b"B", b"\0"), "08P01"),
        ("a format of 2", parse("SELECT 1") + bind(results=[2]), "22023"),
        ("a Parse that is not UTF-8", message(b"P", b"\0SELECT '\xff'\0\0\0"), "22021"),
        ("formats that do not fit the columns", parse("SELECT id FROM parts") + bind(results=[0, 1, 1]) + execute(), "08P01"),
    ]:
        it.send(data + SYNC)
        found = it.answer()
        yield what, (found.code, found.kinds[-2:]), (code, "EZ")
    it.send(message(b"C", b"S" + text("never there")) + SYNC)
    yield "Close of no statement", it.answer().kinds, "3Z"


def values(gateway: Gateway) -> Iterator[Case]:
    """Parameters and results of each type, as text and binary."""
    with gateway.connect() as it:
        eight, four, two = struct.pack("!q", 2), struct.pack("!i", 2), struct.pack("!h", 2)
        for oid, data, form in [
            (0, eight, 1),
            (INT8, eight, 1),
            (23, four, 1),
            (21, two, 1),
            (0, b"2", 0),
            (23, b" 2", 0),
            (INT8, b"+2", 0),
        ]:
            found = it.prepared("SELECT name FROM parts WHERE id = $1", [data], [oid], [form])
            yield f"2 of oid {oid} in format {form}", (found.texts, found.code), ([("nut",)], "")
        for data, form, wanted in [
            (b"\1", 1, ["1", "2"]),
            (b"\0", 1, ["3"]),
            (b"t", 0, ["1", "2"]),
            (b"false", 0, ["3"]),
            (b"off", 0, ["3"]),
        ]:
            found = it.prepared("SELECT id FROM parts WHERE live = $1 ORDER BY id", [data], [BOOL], [form])
            yield f"{data!r} as boolean", [at[0] for at in found.texts], wanted
        found = it.prepared("SELECT id, name, qty, live FROM parts ORDER BY id", results=[1])
        wanted_rows = [
            (struct.pack("!q", 1), b"bolt", struct.pack("!q", 10), b"\1"),
            (eight, b"nut", None, b"\1"),
            (struct.pack("!q", 3), None, bytes(8), b"\0"),
        ]
        yield "binary rows", found.rows, wanted_rows
        yield "binary columns", [at.form for at in found.columns], [1] * 4
        found = it.prepared("SELECT id, name, live FROM parts WHERE id = 1", results=[0, 0, 1])
        yield "formats one by one", (found.rows, [at.form for at in found.columns][-3:]), ([(b"1", b"bolt", b"\1")], [0, 0, 1])
        yield from texts_there_and_back(it)
        yield from refused_values(it)


def texts_there_and_back(it: Client) -> Iterator[Case]:
    """Texts that are written and found again, NULL, and the least integer."""
    for data in ("x' OR TRUE --", "it's", "\\N", "\\", "a\tb", "", "NULL", "🦊 ünï", "$1", "a;b", "t", "1"):
        it.prepared("UPDATE parts SET name = $1 WHERE id = 3", [data.encode()])
        found = it.prepared("SELECT name FROM parts WHERE name = $1 AND id = 3", [data.encode()])
        yield f"{data!r} there and back", found.texts, [(data,)]
    it.query("UPDATE parts SET name = NULL WHERE id = 3")
    for sql in ("name LIKE $1", "name NOT LIKE $1", "NOT name LIKE $1 AND id > $2"):
        values = [None, b"0"][:sql.count("$")]
        yield f"{sql} of NULL", it.prepared(f"SELECT id FROM parts WHERE {sql}", values).rows, []
    found = it.prepared("SELECT id, name LIKE $1 AS x FROM parts WHERE id < 3 AND (name LIKE $2 OR name LIKE $1)", [None, b"b%"])
    yield "a pattern that is NULL beside one that is none", found.texts, [("1", None)]
    yield "NULL equals nothing", it.prepared("SELECT id FROM parts WHERE id = $1", [None]).rows, []
    yield "least integer", it.prepared("SELECT id FROM parts WHERE qty > $1 ORDER BY id", [b"-9223372036854775808"]).texts, [
        ("1",),
        ("3",),
    ]


def refused_values(it: Client) -> Iterator[Case]:
    """Values that have no literal, with their SQLSTATEs."""
    for column, data, oid, form, codes in [
        ("id", b"abc", 0, 0, ["22P02"]),
        ("id", b"", 0, 0, ["22P02"]),
        ("id", b"1.5", 0, 0, ["22P02"]),
        ("id", b"9223372036854775808", 0, 0, ["22003"]),
        ("live", b"maybe", 0, 0, ["22P02"]),
        ("live", b"\2\2", 0, 1, ["22P03"]),
        ("id", b"\1\2\3", 0, 1, ["22P03"]),
        ("name", b"a\0b", 0, 0, ["22021"]),
        ("name", b"\xff", 0, 0, ["22021"]),
        ("name", b"a\nb", 0, 0, ["0A000"]),
        ("id", b"1.5", 701, 0, ["42846", "0A000", "42883"]),
        ("id", b"x", TEXT, 0, ["42883"]),
        ("id", b"1' OR 1=1", INT8, 0, ["22P02"]),
    ]:
        found = it.prepared(f"SELECT id FROM parts WHERE {column} = $1", [data], [oid], [form])
        yield f"{data!r} for {column} of oid {oid}", (found.code in codes, found.code, found.kinds[-1]), (True, found.code, "Z")


def copies(gateway: Gateway) -> Iterator[Case]:
    """COPY .. TO STDOUT, in PostgreSQL's text and CSV forms."""
    rows = b"1\t4\tx\n1\t6\t\\N\n2\t5\ta\\nb\\tc\\\\d\n9\t-7\t\\\\N\n"
    csv = b'1,4,x\n1,6,\n2,5,"a\nb\tc\\d"\n9,-7,\\N\n'
    with gateway.connect() as it:
        found = it.query("COPY sales TO STDOUT")
        yield "text", (found.copied, found.kinds, found.tags), (rows, "HddddcCZ", ["COPY 4"])
        for options, wanted in [
            ("WITH (FORMAT csv)", csv),
            ("CSV", csv),
            ("WITH (FORMAT csv, HEADER)", b"who,amount,tags\n" + csv),
            ("WITH CSV HEADER", b"who,amount,tags\n" + csv),
            ("(FORMAT 'csv', HEADER true)", b"who,amount,tags\n" + csv),
            ("(FORMAT csv, HEADER false)", csv),
            ("(FORMAT text)", rows),
        ]:
            yield options, it.query(f"COPY sales TO STDOUT {options}").copied, wanted
        yield "an empty text beside NULL", it.query("COPY people TO STDOUT CSV").copied, b'1,Ada,Rome\n2,"Bo, Jr.",Oslo\n3,"",\n'
        yield "columns", it.query("COPY parts (name, id) TO STDOUT").copied, b"bolt\t1\nnut\t2\n\\N\t3\n"
        yield "a query", it.query("COPY (SELECT id FROM parts WHERE id > 1 ORDER BY id DESC) TO STDOUT").copied, b"3\n2\n"
        found = it.query("COPY (SELECT id FROM parts WHERE id > 9) TO STDOUT")
        yield "no rows", (found.kinds, found.tags), ("HcCZ", ["COPY 0"])
        yield from other_copies(it, rows, csv)


def other_copies(it: Client, rows: bytes, csv: bytes) -> Iterator[Case]:
    """Options that PostgreSQL has too, statements that are none of COPY, and COPY by the extended protocol."""
    for options, wanted in [
        ("(FORMAT csv, DELIMITER ';')", csv.replace(b",", b";")),
        ("(DELIMITER '|')", rows.replace(b"\t", b"|")),
        ("(FORMAT csv, NULL 'none')", csv.replace(b"6,\n", b"6,none\n")),
        ("(FORMAT binary)", None),
        ("(FORMAT csv, QUOTE '#')", None),
    ]:
        found = it.query(f"COPY sales TO STDOUT {options}")
        yield f"{options} is done as PostgreSQL does, or refused", found.code in ("0A000", "22023") or found.copied == wanted, True
    yield "an error", it.query("COPY nope TO STDOUT").code, "42P01"
    for sql in ("DELETE FROM parts", "UPDATE parts SET qty = 1", "INSERT INTO parts VALUES (9, 'x', 1, TRUE)", "DROP FOREIGN TABLE parts"):
        yield f"COPY ({sql})", (
            it.query(f"COPY ({sql}) TO STDOUT").code in ("0A000", "42601"),
            it.query("SELECT * FROM parts ORDER BY id").texts,
        ), (True, PARTS)
    it.send(parse("COPY (SELECT 1) TO STDOUT") + bind() + execute() + SYNC)
    found = it.answer()
    yield "by the extended protocol", (found.copied, found.kinds), (b"1\n", "12HdcCZ")


def cursors(gateway: Gateway) -> Iterator[Case]:
    """Cursors, and two clients, one with a cursor."""
    with gateway.connect() as it, gateway.connect("ann") as other:
        yield "DECLARE", it.query("DECLARE c CURSOR FOR SELECT no, part FROM orders ORDER BY no").tags, ["DECLARE CURSOR"]
        found = it.query("FETCH 2 FROM c")
        yield "FETCH", (found.texts, found.tags, [at.oid for at in found.columns]), ([("10", "1"), ("11", "1")], ["FETCH 2"], [INT8, INT8])
        found = other.query("UPDATE orders SET n = n WHERE no = 10")
        yield "another's write", (found.code, found.status), ("55006", "I")
        message_text = found.errors[0]["M"].lower() if found.errors else ""
        yield "its message names what is in use", "in use" in message_text or "cursor" in message_text, True
        yield "its own write", it.query("DELETE FROM orders").code, "55006"
        yield "another's cursor of the name", other.query("FETCH 1 FROM c").code, "34000"
        yield "another reads", other.query("SELECT no FROM orders ORDER BY no").texts, [(at[0],) for at in ORDERS]
        yield "FETCH FORWARD ALL", it.query("FETCH FORWARD ALL FROM c").texts, [("12", "9")]
        found = it.query("FETCH 1 FROM c")
        yield "after its end", (found.kinds, found.tags), ("TCZ", ["FETCH 0"])
        yield "the name taken", it.query("DECLARE c CURSOR FOR SELECT no FROM orders").code, "42P03"
        yield "CLOSE", it.query("CLOSE c").tags, ["CLOSE CURSOR"]
        yield "another's write after CLOSE", other.query("UPDATE orders SET n = n WHERE no = 10").tags, ["UPDATE 1"]
        it.query("DECLARE a CURSOR FOR SELECT no FROM orders; DECLARE b CURSOR FOR SELECT id FROM parts")
        yield "CLOSE ALL", (it.query("CLOSE ALL").code, it.query("FETCH 1 FROM a").code, it.query("FETCH 1 FROM b").code), (
            "",
            "34000",
            "34000",
        )
        it.query("DECLARE d CURSOR FOR SELECT id, live FROM parts ORDER BY id")
        found = it.prepared("FETCH 1 FROM d", results=[1])
        yield "FETCH in binary", (found.rows, found.code, found.kinds), ([(struct.pack("!q", 1), b"\1")], "", "1tT2TDCZ")
        it.leave()
        yield "a write once the holder left", writes_within(other, "UPDATE parts SET qty = qty WHERE id = 1", 1.0), True


def writes_within(client: Client, sql: str, seconds: float) -> bool:
    """Whether a write is done within this time: 55006 is tried again."""
    import time

    end = time.monotonic() + seconds
    while (code := client.query(sql).code) == "55006" and time.monotonic() < end:
        time.sleep(0.02)
    return code == ""


def transactions(gateway: Gateway) -> Iterator[Case]:
    """BEGIN, COMMIT and ROLLBACK: reads go through, writes are refused or are done at once."""
    with gateway.connect() as it:
        yield "BEGIN", [(found.tags, found.status) for found in (it.query("BEGIN"),)], [(["BEGIN"], "T")]
        yield "a read", it.query("SELECT id FROM parts WHERE id = 1").status, "T"
        found = it.query("DELETE FROM orders")
        yield "a write", (found.code, found.status, "H" in (found.errors or [{}])[0]), ("0A000", "E", True)
        yield "a failed transaction", [it.query("SELECT 1").code, it.query("COMMIT").tags, it.query("SELECT 1").status], [
            "25P02",
            ["ROLLBACK"],
            "I",
        ]
        yield "the rows stay", len(it.query("SELECT no FROM orders").rows), 3
        it.query("SET fedq.writes = 'each'")
        it.query("BEGIN")
        yield "a write that is done at once", it.query("INSERT INTO orders VALUES (40, 1, 1)").tags, ["INSERT 0 1"]
        found = it.query("ROLLBACK")
        yield "a warning that it stays", (found.tags, len(found.notices), found.status), (["ROLLBACK"], 1, "I")
        yield "it stays", it.query("DELETE FROM orders WHERE no = 40").tags, ["DELETE 1"]
        it.query("BEGIN")
        it.query("DECLARE c CURSOR FOR SELECT no FROM orders")
        it.query("COMMIT")
        yield "COMMIT closes cursors", it.query("FETCH 1 FROM c").code, "34000"
        yield "SET and SHOW", [it.query("SET application_name = 'x y'").tags, it.query("SHOW application_name").texts], [
            ["SET"],
            [("x y",)],
        ]
        it.query("BEGIN")
        yield "an error of its own", (it.query("SELECT nope FROM parts").status, it.query("ROLLBACK").status), ("E", "I")


def rights(gateway: Gateway) -> Iterator[Case]:
    """Users that may not."""
    with gateway.connect("ann") as it:
        for sql in (
            "CREATE FOREIGN DATA WRAPPER w HANDLER csv",
            "DROP FOREIGN TABLE parts",
            "CREATE USER MAPPING FOR ann SERVER files OPTIONS (mode 'write')",
            "INSERT INTO people VALUES (9, 'x', 'y')",
        ):
            yield sql, it.query(sql).code, "42501"
        yield "who one is", it.query("SELECT current_user").texts, [("ann",)]
        for sql in ("SET ROLE admin", "SET SESSION AUTHORIZATION admin", "SET session_authorization = 'admin'", "SET role = 'admin'"):
            yield f"{sql} changes nobody", (it.query(sql).status, it.query("DROP FOREIGN TABLE parts").code), ("I", "42501")
        yield "what ann may", it.query("INSERT INTO orders VALUES (50, 1, 1); DELETE FROM orders WHERE no = 50").tags, [
            "INSERT 0 1",
            "DELETE 1",
        ]


def catalogue(gateway: Gateway) -> Iterator[Case]:
    """Queries of drivers over pg_catalog and information_schema."""
    tables = ["big", "mid", "orders", "parts", "people", "sales", "staff"]
    wanted: List[Tuple[str, List[Tuple[Optional[str], ...]]]] = [
        ("SELECT table_name FROM information_schema.tables WHERE table_schema = 'public' ORDER BY 1", [(it,) for it in tables]),
        (
            "SELECT c.relname FROM pg_catalog.pg_class c JOIN pg_catalog.pg_namespace n ON n.oid = c.relnamespace "
            "WHERE n.nspname = 'public' "
            "AND c.relkind IN ('r', 'f') ORDER BY 1",
            [(it,) for it in tables],
        ),
        (
            "SELECT column_name, data_type, is_nullable FROM information_schema.columns WHERE table_name = 'staff' "
            "ORDER BY ordinal_position",
            [("id", "bigint", "NO"), ("name", "text", "YES"), ("active", "boolean", "YES")],
        ),
        (
            "SELECT attname FROM pg_attribute WHERE attrelid = 'public.parts'::regclass AND attnum > 0 ORDER BY attnum",
            [("id",), ("name",), ("qty",), ("live",)],
        ),
        ("SELECT current_database(), current_schema()", [("fedq", "public")]),
    ]
    with gateway.connect(database="fedq") as it:
        for sql, rows in wanted:
            found = it.query(sql)
            yield sql[:90], (found.texts, found.code), (rows, "")
        yield "by the extended protocol", it.prepared("SELECT relname FROM pg_class WHERE relname = $1", [b"parts"]).texts, [("parts",)]
        yield "version()", it.query("SELECT version()").texts[0][0][:10] if it.query("SELECT version()").texts else "", "PostgreSQL"
        yield "an unknown function", it.query("SELECT nope(relname) FROM pg_class").code in ("42883", "0A000"), True
        yield "an unknown column", it.query("SELECT nope FROM pg_class").code in ("42703", "0A000"), True


USUAL = [start_up, simple_queries, extended_queries, values, copies, cursors, transactions, rights, catalogue]
