"""Named prepared queries whose Bind, Describe, Execute and Sync come together, which the gateway answers in one pass: values, states,
faults, and the same answers byte for byte as where the messages come one by one. Wanted values come from PostgreSQL's documentation of
the protocol and its table of SQLSTATEs."""
import os, pathlib, random, struct, sys, time
from typing import Any, Iterator, List, NamedTuple, Optional, Sequence, Tuple

from support.cases import Case
from support.gateways import Gateway
from support.wire import BOOL, FLUSH, INT8, SYNC, TEXT, Answer, Client, bind, describe, execute, message, parse, text

Value = Optional[bytes]
HERE = pathlib.Path(__file__).resolve().parent


def counting(program: str) -> Gateway:
    """A gateway that counts what it answers in one pass; see `passes`."""
    kept = os.environ.get("FEDQ_GATEWAY")
    os.environ["FEDQ_GATEWAY"] = f"{sys.executable} -X utf8 {HERE / 'counted_gateway.py'}"
    try:
        return Gateway(program, middle=300)
    finally:
        del os.environ["FEDQ_GATEWAY"]
        if kept is not None:
            os.environ["FEDQ_GATEWAY"] = kept


def passes(gateway: Gateway) -> int:
    """How many prepared queries were answered in one pass."""
    file = gateway.folder / "quick"
    return file.stat().st_size if file.exists() else 0


class Run(NamedTuple):
    """What one run of a prepared query sends."""

    values: Sequence[Value] = ()
    forms: Sequence[int] = ()
    results: Sequence[int] = ()
    is_described: bool = True


def together(name: str, run: Run) -> bytes:
    """A run whose messages come together."""
    middle = describe() if run.is_described else b""
    return bind(run.values, name=name, forms=run.forms, results=run.results) + middle + execute() + SYNC


def ran(it: Client, name: str, *values: Value, **how: Any) -> Answer:
    """The answer to a run whose messages come together."""
    it.send(together(name, Run(values, **how)))
    return it.answer()


def prepare(it: Client, sql: str, name: str = "s", oids: Sequence[int] = ()) -> str:
    """Prepares a statement; the code of what is refused."""
    it.send(parse(sql, name, oids) + SYNC)
    return it.answer().code


def learned(it: Client, sql: str, *values: Value, name: str = "s", oids: Sequence[int] = ()) -> Answer:
    """Prepares a query and runs it twice with these values, so that it may go in one pass from then on."""
    prepare(it, sql, name, oids)
    ran(it, name, *values)
    return ran(it, name, *values)


# Values

NAMES = ("bolt", "it's", "a\\b", "\\N", "a\tb", "", "NULL", "ünï 🦊", "100%", "%s", "$1", "--", "''", "'")
NUMBERS = [
    (b"1", 0, 20, 1),
    (b"0", 0, 20, 0),
    (b"-5", 0, 20, -5),
    (b"+7", 0, 20, 7),
    (b" 2", 0, 20, 2),
    (b"007", 0, 20, 7),
    (b"9223372036854775807", 0, 20, 2**63 - 1),
    (b"-9223372036854775808", 0, 20, -(2**63)),
    (struct.pack("!q", 3), 1, 20, 3),
    (struct.pack("!q", -3), 1, 20, -3),
    (struct.pack("!q", 2**63 - 1), 1, 20, 2**63 - 1),
    (struct.pack("!q", -(2**63)), 1, 20, -(2**63)),
    (struct.pack("!i", 4), 1, 23, 4),
    (struct.pack("!i", -4), 1, 23, -4),
    (struct.pack("!h", 5), 1, 21, 5),
    (struct.pack("!I", 2**32 - 1), 1, 26, 2**32 - 1),
]
REFUSED = [
    ("id", b"abc", 20, 0, "22P02"),
    ("id", b"", 20, 0, "22P02"),
    ("id", b"1.5", 20, 0, "22P02"),
    ("id", b"9223372036854775808", 20, 0, "22003"),
    ("id", b"\1\2\3", 20, 1, "22P03"),
    ("id", b"1 OR 1=1", 20, 0, "22P02"),
    ("name", b"a\0b", 25, 0, "22021"),
    ("name", b"\xff", 25, 0, "22021"),
    ("name", b"\xed\xa0\x80", 25, 0, "22021"),
    ("live", b"\2", 16, 1, "22P03"),
    ("live", b"maybe", 16, 0, "22P02"),
]


def values(gateway: Gateway) -> Iterator[Case]:
    """Parameters and results of each type, each in a query that has run before."""
    before = passes(gateway)
    with gateway.connect() as it:
        learned(it, "SELECT name AS found FROM parts WHERE id = 3 AND $1 = $2", b"x", b"x", oids=[TEXT, TEXT])
        it.query("INSERT INTO parts VALUES (4, 'other', 4, TRUE)")
        prepare(it, "UPDATE parts SET name = $1 WHERE id = 4", "write")
        learned(it, "SELECT name FROM parts WHERE name = $1 AND id = 4", b"x", name="read")
        for wanted in NAMES:
            yield f"{wanted!r} is written", ran(it, "write", wanted.encode()).tags, ["UPDATE 1"]
            found = ran(it, "read", wanted.encode())
            yield f"{wanted!r} is found", (found.kinds, found.texts), ("2TDCZ", [(wanted,)])
            yield f"{wanted!r} in binary", ran(it, "read", wanted.encode(), forms=[1], results=[1]).texts, [(wanted,)]
        yield "NULL equals nothing", ran(it, "read", None).rows, []
        yield "and then a text", len(ran(it, "read", NAMES[-1].encode()).rows), 1
        it.query("DELETE FROM parts WHERE id = 4")
        for oid in (20, 23, 21, 26):
            learned(it, "SELECT id + $1 AS x FROM parts WHERE id = 1", b"1", name=f"n{oid}", oids=[oid])
        for data, form, oid, number in NUMBERS:
            if number < 2**63 - 1:
                found = ran(it, f"n{oid}", data, forms=[form])
                yield f"{data!r} of oid {oid}, as text", found.texts, [(str(number + 1),)]
                found = ran(it, f"n{oid}", data, forms=[form], results=[1], is_described=False)
                yield f"{data!r} of oid {oid}, in binary", (found.kinds, found.rows), ("2DCZ", [(struct.pack("!q", number + 1),)])
            else:
                yield f"{data!r} of oid {oid} and 1", ran(it, f"n{oid}", data, forms=[form]).code, "22003"
        yield from booleans(it)
        yield from refused_values(it)
        yield from results(it)
    yield "answered in one pass: at least 40", passes(gateway) - before >= 40 or passes(gateway) - before, True


def booleans(it: Client) -> Iterator[Case]:
    """Parameters of the type boolean."""
    learned(it, "SELECT id FROM parts WHERE live = $1 ORDER BY id", b"t", name="b")
    for data, form, wanted in [(b"\1", 1, "12"), (b"\0", 1, "3"), (b"t", 0, "12"), (b"false", 0, "3"), (b"off", 0, "3"), (None, 0, "")]:
        yield f"{data!r} as boolean", "".join(at[0] for at in ran(it, "b", data, forms=[form]).texts), wanted


def refused_values(it: Client) -> Iterator[Case]:
    """Values that have no literal, and counts that do not fit."""
    for column, data, oid, form, code in REFUSED:
        good = {20: b"1", 25: b"bolt", 16: b"t"}[oid]
        learned(it, f"SELECT id FROM parts WHERE {column} = $1", good, name=f"r{column}{oid}{data!r}", oids=[oid])
        found = ran(it, f"r{column}{oid}{data!r}", data, forms=[form])
        yield f"{data!r} for {column}", (found.code, found.kinds, found.status), (code, "EZ", "I")
        yield f"{column} after that", ran(it, f"r{column}{oid}{data!r}", good).texts[0], ("1",)
    learned(it, "SELECT id FROM parts WHERE id = $1", b"1", name="one")
    for what, data, code in [
        ("a value too few", bind(name="one"), "08P01"),
        ("a value too many", bind([b"1", b"2"], name="one"), "08P01"),
        ("a format of 2", bind([b"1"], name="one", results=[2]), "22023"),
        ("a parameter's format of 2", bind([b"1"], name="one", forms=[2]), "22023"),
        ("two formats for one value", bind([b"1"], name="one", forms=[0, 0]), "08P01"),
    ]:
        it.send(data + describe() + execute() + SYNC)
        found = it.answer()
        yield what, (found.code, found.kinds), (code, "EZ")
    it.send(bind([b"1"], name="one", results=[0, 1]) + describe() + execute() + SYNC)
    found = it.answer()
    yield "two formats for one column", (found.code, found.kinds[-2:]), ("08P01", "EZ")
    cut = bind([b"1"], name="one")[5:-4]
    it.send(message(b"B", cut) + describe() + execute() + SYNC)
    yield "a Bind that is cut short", it.answer().code, "08P01"


def results(it: Client) -> Iterator[Case]:
    """Results as texts, in binary, and mixed."""
    learned(it, "SELECT id, name, qty, live FROM parts WHERE id >= $1 ORDER BY id", b"1", name="all")
    one, three = (struct.pack("!q", at) for at in (1, 3))
    found = ran(it, "all", b"1", results=[1])
    binary = [(one, b"bolt", struct.pack("!q", 10), b"\1"), (struct.pack("!q", 2), b"nut", None, b"\1"), (three, None, bytes(8), b"\0")]
    yield "binary", (found.rows, [(at.oid, at.form) for at in found.columns]), (binary, [(it, 1) for it in (INT8, TEXT, INT8, BOOL)])
    found = ran(it, "all", b"3", results=[1, 0, 0, 1])
    yield "mixed", (found.rows, [at.form for at in found.columns]), ([(three, None, b"0", b"\0")], [1, 0, 0, 1])
    found = ran(it, "all", b"99", results=[1])
    yield "no rows", (found.kinds, found.tags), ("2TCZ", ["SELECT 0"])
    learned(it, "SELECT who, tags FROM sales WHERE amount = $1 OR amount = $2 ORDER BY amount", b"5", b"5", name="tags")
    found = ran(it, "tags", b"5", b"6")
    yield "texts with LF, TAB and a backslash, and NULL", found.texts, [("2", "a\nb\tc\\d"), ("1", None)]
    learned(it, "SELECT id AS \"100%\", 'a%s%%' AS b FROM parts WHERE id = $2 AND id < $1 AND id = $2", b"9", b"2", name="percent")
    found = ran(it, "percent", b"8", b"1")
    yield "a per cent sign, and a value used twice", ([at.name for at in found.columns], found.texts), (["100%", "b"], [("1", "a%s%%")])


# States


def states(gateway: Gateway) -> Iterator[Case]:
    """Blocks, names that are closed or taken, objects that are made and dropped, other clients."""
    with gateway.connect() as it:
        yield from in_blocks(it)
        yield from names_of_statements(it)
        yield from changed_objects(gateway, it)
        yield from of_others(gateway, it)


def in_blocks(it: Client) -> Iterator[Case]:
    """In a transaction block, and in one that failed."""
    learned(it, "SELECT 10 / id AS x FROM parts WHERE id - $1 = 0 OR id / $1 = 1 ORDER BY id", b"1")
    it.query("BEGIN")
    found = ran(it, "s", b"2")
    yield "in a block", (found.texts, found.status), ([("5",), ("3",)], "T")
    it.send(execute() + SYNC)
    found = it.answer()
    yield "its portal cannot give its rows again", (found.rows, found.status in ("T", "E")), ([], True)
    it.query("ROLLBACK")
    it.query("BEGIN")
    found = ran(it, "s", b"0")
    yield "a fault in a block", (found.code, found.status, found.kinds[-2:]), ("22012", "E", "EZ")
    found = ran(it, "s", b"2")
    yield "in a failed block", (found.code, found.status), ("25P02", "E")
    yield "its end", it.query("COMMIT").tags, ["ROLLBACK"]
    found = ran(it, "s", b"2")
    yield "after it", (found.texts, found.status), ([("5",), ("3",)], "I")
    it.send(execute() + SYNC)
    yield "outside a block a portal ends by Sync", it.answer().code, "34000"


def names_of_statements(it: Client) -> Iterator[Case]:
    """Names that are closed, taken and given anew."""
    learned(it, "SELECT name FROM parts WHERE id = $1", b"1", name="again")
    yield "a name that is taken", prepare(it, "SELECT qty FROM parts WHERE id = $1", "again"), "42P05"
    yield "the first is as it was", ran(it, "again", b"2").texts, [("nut",)]
    it.send(message(b"C", b"S" + text("again")) + SYNC)
    it.answer()
    yield "closed", (ran(it, "again", b"2").code, ran(it, "again", b"2").kinds), ("26000", "EZ")
    yield "given anew", prepare(it, "SELECT qty FROM parts WHERE id = $1", "again"), ""
    yield "the new one, twice", [ran(it, "again", b"1").texts for _ in range(2)], [[("10",)]] * 2
    it.send(message(b"C", b"S" + text("again")) + parse("SELECT live FROM parts WHERE id = $1", "again") + together("again", Run([b"3"])))
    yield "closed, given anew and run in one piece", it.answer().texts, [("f",)]
    for sql in ("DEALLOCATE again", "DEALLOCATE ALL", "DISCARD ALL"):
        it.query("DEALLOCATE again")
        prepare(it, "SELECT name FROM parts WHERE id = $1", "again")
        yield f"before {sql}", [ran(it, "again", b"1").texts for _ in range(2)], [[("bolt",)]] * 2
        it.query(sql)
        yield sql, ran(it, "again", b"1").code, "26000"
    it.send(b"".join(parse(f"SELECT {column} FROM parts WHERE id = $1") + together("", Run([b"1"])) for column in ("id", "qty")))
    yield "the unnamed one is another each time", [it.answer().texts for _ in range(2)], [[("1",)], [("10",)]]


def changed_objects(gateway: Gateway, it: Client) -> Iterator[Case]:
    """A table that is dropped and made between runs of one prepared query."""
    (gateway.folder / "files/changed.csv").write_text("a,b\n1,x\n2,3\n", encoding="utf-8")
    make = "CREATE FOREIGN TABLE changed (a integer, b text) SERVER files OPTIONS (filename 'changed.csv', header 'true')"
    it.query(make)
    yield "made", learned(it, "SELECT * FROM changed WHERE a = $1", b"1", name="c").texts, [("1", "x")]
    it.query("DROP FOREIGN TABLE changed")
    yield "dropped", [ran(it, "c", b"1").code for _ in range(2)], ["42P01"] * 2
    it.query(make.replace("a integer", "a text"))
    yield "made with other types", ran(it, "c", b"1").code, "42883"
    it.query("DROP FOREIGN TABLE changed")
    it.query(make)
    found = [ran(it, "c", b"2") for _ in range(2)]
    yield "made again", [at.texts for at in found], [[("2", "3")]] * 2
    it.send(message(b"Q", text("DROP FOREIGN TABLE changed")) + together("c", Run([b"1"])) + message(b"Q", text(make)))
    yield "dropped in the same piece", [it.answer().code for _ in range(3)], ["", "42P01", ""]
    with gateway.connect() as other:
        yield "as before", ran(it, "c", b"1").texts, [("1", "x")]
        other.query("DROP FOREIGN TABLE changed")
        yield "dropped by another client", ran(it, "c", b"1").code, "42P01"


def of_others(gateway: Gateway, it: Client) -> Iterator[Case]:
    """Another client's cursor, another client's statement of the same name, and a user that may not."""
    with gateway.connect("ann") as ann:
        learned(it, "SELECT no FROM orders WHERE n >= $1 ORDER BY no", b"0", name="o")
        prepare(it, "UPDATE orders SET n = n WHERE no = $1", "w")
        ran(it, "w", b"10")
        ann.query("DECLARE c CURSOR FOR SELECT no FROM orders")
        yield "a table that a cursor reads is read", ran(it, "o", b"5").texts, [("11",)]
        yield "and not written", [ran(it, "w", b"10").code for _ in range(2)], ["55006"] * 2
        ann.query("CLOSE c")
        yield "until the cursor is closed", (ran(it, "w", b"10").tags, ran(it, "o", b"5").texts), (["UPDATE 1"], [("11",)])
        learned(ann, "SELECT id FROM parts WHERE id = $1", b"1", name="o")
        yield "each client's own statement", (ran(ann, "o", b"2").texts, ran(it, "o", b"5").texts), ([("2",)], [("11",)])
        prepare(ann, "INSERT INTO people VALUES ($1, 'x', 'y')", "i")
        yield "what ann may not write", [ran(ann, "i", b"9").code for _ in range(2)], ["42501"] * 2
        (gateway.folder / "hidden.db").touch()
        learned(it, "SELECT id FROM staff WHERE id = $1", b"1", name="h")
        prepare(ann, "SELECT id FROM staff WHERE id = $1", "h")
        yield "what ann may read", ran(ann, "h", b"1").texts, [("1",)]
        it.query("CREATE USER MAPPING FOR admin SERVER base OPTIONS (mode 'write')")
        it.query("DROP USER MAPPING FOR PUBLIC SERVER base")
        yield "what ann may not read any more", ran(ann, "h", b"1").code in ("42501", "42704", "42P01"), True
        yield "admin may", ran(it, "h", b"1").texts, [("1",)]
        it.query("CREATE USER MAPPING FOR PUBLIC SERVER base OPTIONS (mode 'write')")
        it.query("DROP USER MAPPING FOR admin SERVER base")
        yield "ann may again", [ran(ann, "h", b"1").texts for _ in range(2)], [[("1",)]] * 2


# Messages in other orders


def orders(gateway: Gateway) -> Iterator[Case]:
    """Row limits, several runs before one Sync, Flush, faults that skip up to Sync, pipelines, messages in pieces."""
    with gateway.connect() as it:
        learned(it, "SELECT id FROM parts WHERE id >= $1 ORDER BY id", b"1")
        bound = bind([b"1"], name="s")
        it.send(bound + describe() + execute("", 2) + execute("", 2) + SYNC)
        yield "two rows at a time", it.answer().kinds, "2TDDsDCZ"
        it.send(bound + execute("", 2) + SYNC)
        yield "a portal that is not emptied", it.answer().kinds, "2DDsZ"
        yield "and all rows after it", ran(it, "s", b"1").kinds, "2TDDDCZ"
        it.send(bound + execute() + bind([b"2"], name="s") + execute() + bind([b"3"], name="s") + execute() + SYNC)
        found = it.answer()
        yield "three runs before one Sync", (found.kinds, found.texts), ("2DDDC2DDC2DCZ", [(it,) for it in "123233"])
        it.send(bound + execute() + bind([b"x"], name="s") + execute() + bound + describe() + execute() + SYNC)
        found = it.answer()
        yield "a fault skips all up to Sync", (found.kinds, found.code), ("2DDDCEZ", "22P02")
        it.send(bind([b"3"], name="s") + describe() + execute() + FLUSH)
        yield "Flush", [it.read()[0] for _ in range(4)], [b"2", b"T", b"D", b"C"]
        it.send(bind([b"x"], name="none") + together("s", Run([b"1"])) + together("s", Run([b"3"])))
        yield "a fault, and a run after its Sync", [it.answer().kinds for _ in range(2)], ["EZ", "2TDCZ"]
        it.send(b"".join(together("s", Run([b"%d" % (at % 5)])) for at in range(300)))
        yield "300 runs in one piece", [len(it.answer().rows) for _ in range(300)], [(3, 3, 2, 1, 0)[at % 5] for at in range(300)]
        it.send(bound + describe(b"S", "s") + execute() + SYNC)
        yield "Describe of the statement", it.answer().kinds, "2tTDDDCZ"
        it.send(bind([b"2"], portal="p", name="s") + describe(b"P", "p") + execute("p") + SYNC)
        yield "a portal with a name", it.answer().kinds, "2TDDCZ"
        it.send(bind([b"2"], portal="p", name="s") + bound + execute("p") + SYNC)
        yield "Execute of another portal", it.answer().kinds, "22DDCZ"
        for size in (1, 5, 7, 30):
            data = together("s", Run([b"2"])) + together("s", Run([b"3"]))
            for at in range(0, len(data), size):
                it.send(data[at : at + size])
                time.sleep(0.001)
            yield f"in pieces of {size}", [it.answer().texts for _ in range(2)], [[("2",), ("3",)], [("3",)]]


# Faults

SLOW = "SELECT count(*) AS n FROM mid a, mid b, people c, people d WHERE a.id < $1 AND a.id + b.id = 5"  # some tenths of a second


def faults(gateway: Gateway) -> Iterator[Case]:
    """Cancel, a limit of time, and an engine that is killed between runs and within one."""
    with gateway.connect() as it, gateway.connect() as other:
        learned(it, SLOW, b"0")
        learned(it, "SELECT name FROM parts WHERE id = $1", b"1", name="short")
        it.send(together("s", Run([b"300"])))
        time.sleep(0.2)
        it.cancel()
        found = it.answer()
        yield "cancel", (found.code, found.status, found.kinds[-2:]), ("57014", "I", "EZ")
        yield "after it", ran(it, "short", b"2").texts, [("nut",)]
        it.query("SET statement_timeout = 100")
        yield "a limit of time", ran(it, "s", b"300").code, "57014"
        it.query("SET statement_timeout = 0")
        yield "and none", ran(it, "short", b"2").texts, [("nut",)]
        other.query("SELECT 1")
        gateway.kill_engine()
        yield "the engine killed between runs", until_answered(it, "short"), [("bolt",)]
        it.send(together("s", Run([b"300"])))
        time.sleep(0.2)
        gateway.kill_engine()
        found = it.answer()
        yield "the engine killed within a run", (found.code, found.status, found.kinds[-2:]), ("57P01", "I", "EZ")
        yield "then answered", until_answered(it, "short"), [("bolt",)]
        before = passes(gateway)
        yield "in one pass again", (ran(it, "short", b"2").texts, passes(gateway) - before), ([("nut",)], 1)
        it.query("BEGIN")
        gateway.kill_engine()
        codes = [ran(it, "short", b"2").code for _ in range(2)]
        yield "the engine killed in a block", codes, ["57P01", "25P02"]
        it.query("ROLLBACK")
        yield "after the block", until_answered(it, "short"), [("bolt",)]
        it.send(b"".join(together("short", Run([b"1"])) for _ in range(500)))
        gateway.kill_engine()
        found_codes = {it.answer().code for _ in range(500)}
        yield "the engine killed within 500 runs in one piece", found_codes <= {"", "57P01"} or found_codes, True
        yield "and after them", until_answered(it, "short"), [("bolt",)]
        longest = b"x" * 1_048_576
        learned(it, "SELECT id FROM parts WHERE name = $1", b"bolt", name="long")
        yield "a value longer than a request", (ran(it, "long", longest).code, ran(it, "long", b"nut").texts), ("54000", [("2",)])


def until_answered(it: Client, name: str, seconds: float = 20.0) -> List[Tuple[Optional[str], ...]]:
    """The rows of the first run that is not answered 57P01."""
    end = time.monotonic() + seconds
    while True:
        found = ran(it, name, b"1")
        if found.code != "57P01" or time.monotonic() > end:
            return found.texts if not found.code else [(found.code,)]
        time.sleep(0.02)


# Both ways

# A query, and for each parameter the kind of its values and the oid that Parse gives.
QUERIES: List[Tuple[str, str, List[int]]] = [
    ("SELECT * FROM parts WHERE id = $1", "n", [0]),
    ("SELECT * FROM parts WHERE id = $1 OR name = $2 ORDER BY id", "nt", [20, 25]),
    ("SELECT id, name FROM parts WHERE name = $1", "t", [0]),
    ("SELECT id, name FROM parts WHERE name LIKE $1 ORDER BY id", "t", [0]),
    ("SELECT id FROM parts WHERE name LIKE $1 OR name NOT LIKE $2 ORDER BY id", "tt", [0, 0]),
    ("SELECT id, live FROM parts WHERE live = $1 ORDER BY id", "b", [0]),
    ("SELECT id + $1 AS x FROM parts ORDER BY id", "n", [20]),
    ("SELECT id - $1 AS x FROM parts ORDER BY id", "n", [23]),
    ("SELECT id * $1 AS x, $1 AS y FROM parts ORDER BY id", "n", [0]),
    ("SELECT 7 / $1 AS x FROM parts WHERE id = 1", "n", [21]),
    ("SELECT $1 AS a, $2 AS b, $3 AS c", "ntb", [20, 25, 16]),
    ("SELECT $1 AS a", "t", [1043]),
    ("SELECT $1 AS a", "n", [26]),
    ("SELECT $1 AS a", "n", [1700]),
    ("SELECT id FROM mid ORDER BY id LIMIT $1", "n", [0]),
    ("SELECT id FROM mid ORDER BY id LIMIT $1 OFFSET $2", "nn", [0, 20]),
    ("SELECT count(*), min(name), max(id) FROM mid WHERE grp < $1", "n", [20]),
    ("SELECT grp, count(*) FROM mid WHERE name >= $1 AND grp < 9 GROUP BY grp ORDER BY grp", "t", [25]),
    ("SELECT who, amount, tags FROM sales WHERE amount > $1 OR tags = $2 ORDER BY amount", "nt", [0, 0]),
    ("SELECT p.name, s.amount FROM people p JOIN sales s ON s.who = p.id WHERE s.amount >= $1 ORDER BY s.amount", "n", [0]),
    ("SELECT id, active FROM staff WHERE active = $1 OR id = $2 ORDER BY id", "bn", [16, 23]),
    ("SELECT CASE WHEN id = $1 THEN $2 ELSE 'a%s' END AS x FROM parts ORDER BY id", "nt", [20, 25]),
    ("SELECT id FROM parts WHERE id IN ($1, $2, $1) ORDER BY id", "nn", [0, 0]),
    ("SELECT id FROM parts WHERE id BETWEEN $2 AND $1 ORDER BY id", "nn", [20, 20]),
    ("SELECT id FROM parts UNION ALL SELECT $1 ORDER BY 1", "n", [20]),
    ("SELECT nope FROM parts WHERE id = $1", "n", [20]),
    ("SELECT 1 AS one", "", []),
    ("SELECT relname FROM pg_class WHERE relname = $1", "t", [25]),
    ("SHOW server_encoding", "", []),
    ("SELECT 'a''b%' AS a, name FROM parts WHERE name = $1 -- %s $2", "t", [0]),
]
WHOLE = [b"0", b"1", b"2", b"3", b"12", b"-1", b"-5", b"+7", b" 2", b"007", b"00", b"1000", b"999999999999999999", b"9223372036854775807"]
WHOLE += [b"-9223372036854775808", b"9223372036854775808", b"", b"x", b"1.5", b"1e3", "١".encode(), b"-", b"1_000", b"\0"]
TEXTS = [b"", b"bolt", b"nut", b"x", b"it's", b"''", b"\\", b"\\N", b"a\tb", b"a\nb", b"a\rb", b"%", b"b%", b"_olt", b"%s", b"100%", b"a\\"]
TEXTS += ["🦊 ünï".encode(), b"$1", b"a;b", b"--", b"/*", b"a\0b", b"\xff", b"\xed\xa0\x80", b"\xc3", "é".encode(), b"y" * 3000, b" "]
USUAL = {"n": [b"0", b"1", b"2", b"3", b"12", b"-5"], "t": [b"bolt", b"nut", b"x", b"it's", b"b%"], "b": [b"t", b"f"]}
TRUTHS = [b"t", b"f", b"true", b"FALSE", b"1", b"0", b"on", b"off", b"yes", b"", b"maybe"]
SIZES = {20: "q", 23: "i", 21: "h", 26: "I", 0: "q", 1700: "q"}


def value_of(pick: random.Random, kind: str, oid: int, form: int) -> Value:
    """A value at random: often a usual one, else NULL, one at a limit, or one that is refused."""
    if not form and pick.random() < 0.7:
        return pick.choice(USUAL[kind])
    if pick.random() < 0.05:
        return None
    if kind == "t":
        return pick.choice(TEXTS)
    if not form or pick.random() < 0.05:
        return pick.choice(WHOLE if kind == "n" else TRUTHS)
    if kind == "b":
        return pick.choice([b"\0", b"\1", b"\1", b"\2"])
    size = struct.calcsize(f"!{SIZES[oid]}")
    number = pick.choice([0, 1, 2, 3, 100, 2 ** (8 * size - 1) - 1, -1 if oid != 26 else 5, -(2 ** (8 * size - 1)) if oid != 26 else 7])
    return struct.pack(f"!{SIZES[oid]}", number)


def run_at_random(pick: random.Random, kinds: str, oids: Sequence[int]) -> Run:
    """A run with values and formats at random."""
    forms = pick.choice([[], [], [], [], [0], [1], [pick.randrange(2) for _ in kinds]]) if kinds else []
    each = forms * len(kinds) if len(forms) == 1 else forms or [0] * len(kinds)
    given = [value_of(pick, kind, oid, form) for kind, oid, form in zip(kinds, oids, each)]
    asked = pick.choice([[], [], [], [0], [0], [1], [1], [pick.randrange(2) for _ in range(pick.randrange(5))]])
    return Run(given, forms, asked, pick.random() < 0.7)


def raw(it: Client, kinds: bytes) -> bytes:
    """The bytes of all messages up to the first of one of these kinds."""
    made = b""
    while True:
        kind, body = it.read()
        made += message(kind, body)
        if kind in kinds:
            return made


def one_by_one(it: Client, name: str, run: Run) -> bytes:
    """The answers to a run whose messages come one by one, each once the one before is answered."""
    made = b""
    steps = [(bind(run.values, name=name, forms=run.forms, results=run.results), b"2E"), (describe(), b"TnE"), (execute(), b"CEIs")]
    for data, ends in steps if run.is_described else (steps[0], steps[2]):
        it.send(data + FLUSH)
        answer = raw(it, ends)
        made += answer
        if b"E" in (answer[:1], last_kind(answer)):
            break
    it.send(SYNC)
    return made + raw(it, b"Z")


def last_kind(data: bytes) -> bytes:
    """The kind of the last of some messages."""
    at = 0
    while True:
        size = struct.unpack("!I", data[at + 1 : at + 5])[0] + 1
        if at + size >= len(data):
            return data[at : at + 1]
        at += size


def both_ways(gateway: Gateway, seed: int = 3, count: int = 600) -> Iterator[Case]:
    """Statements and values at random: together in one piece, and one by one, the bytes are the same; outside a block and within."""
    pick, different, before, texts = random.Random(seed), [], passes(gateway), 0
    with gateway.connect() as quick, gateway.connect() as slow:
        names = [f"s{at}" for at in range(len(QUERIES))]
        for name, (sql, _, oids) in zip(names, QUERIES):
            codes = prepare(quick, sql, name, oids), prepare(slow, sql, name, oids)
            yield f"Parse of {sql[:60]}", codes[0] == codes[1], True
        for number in range(count):
            at = pick.randrange(len(QUERIES))
            if number % 20 in (10, 19):
                for it in (quick, slow):
                    it.query("BEGIN" if number % 20 == 10 else "ROLLBACK")
            run = run_at_random(pick, *QUERIES[at][1:])
            quick.send(together(names[at], run))
            found, wanted = raw(quick, b"Z"), one_by_one(slow, names[at], run)
            texts += found == wanted and b"ERROR" not in found
            if found != wanted:
                different.append((QUERIES[at][0], run, found, wanted))
    yield f"{count} runs: those that differ", different[:2], []
    yield f"{count} runs: at least half are no faults", texts >= count // 2 or texts, True
    yield "answered in one pass: at least an eighth", passes(gateway) - before >= count // 8 or passes(gateway) - before, True


PREPARED = [values, states, orders, faults, both_ways]
