"""Clients that break off, lie or request too much, and an engine that is killed: nobody else is disturbed, nothing stays held, and nothing
hangs."""
import random, socket, struct, threading, time
from typing import Any, Callable, Dict, Iterator, List, Optional, Tuple

from support.cases import Case, Cases, refused
from support.gateway_crowd import crowd
from support.gateway_protocol import writes_within
from support.gateway_words import passwords, small, tls, with_ports, with_tls, with_users, words
from support.gateways import Gateway
from support.wire import FLUSH, SYNC, Answer, Client, bind, describe, execute, fields_of, message, parse, startup, text

SLOW = "SELECT count(*) FROM mid a, mid b WHERE a.id + b.id = 5"
# (more than the gateway's and the system's buffers hold: some 20 MB)
LARGE = f"SELECT {', '.join(['a.name', 'b.name'] * 12)}, a.id FROM mid a, mid b"
WRITE = "UPDATE orders SET n = n WHERE no = 10"


class Others:
    """A client that sends a short query again and again beside something else; `longest` is the longest time that it waited, in seconds."""

    def __init__(self, gateway: Gateway) -> None:
        self.client, self.times, self.wrong, self.ends = (
            gateway.connect("other"),
            [],
            [],
            False,
        )  # type: Client, List[float], List[str], bool
        self.thread = threading.Thread(target=self.ask)

    def ask(self) -> None:
        """Sends queries until it is ended."""
        while not self.ends:
            begin = time.monotonic()
            try:
                if self.client.query("SELECT name FROM parts WHERE id = 1").texts != [("bolt",)]:
                    self.wrong.append("a wrong answer")
            except (OSError, ValueError) as fault:
                self.wrong.append(f"{type(fault).__name__}: {fault}")
                return
            self.times.append(time.monotonic() - begin)
            time.sleep(0.002)

    def __enter__(self) -> "Others":
        self.thread.start()
        return self

    def __exit__(self, *_: Any) -> None:
        self.ends = True
        self.thread.join()
        self.client.close()

    @property
    def longest(self) -> float:
        """The longest wait."""
        return max(self.times or [99.0])


# Clients that are cut off


def begun(gateway: Gateway, data: bytes, reads: int = 0) -> Client:
    """A client that has sent these bytes, and has read the given number of messages of what came back."""
    it = gateway.connect("cut")
    it.send(data)
    for _ in range(reads):
        it.read()
    return it


def bare(gateway: Gateway, data: bytes) -> Client:
    """A client that has sent these bytes in place of a start."""
    it = Client(gateway.port, begins=False)
    it.send(data)
    return it


def asked(*queries: str) -> Callable[[Gateway], Client]:
    """What makes a client that was answered these queries."""

    def made(gateway: Gateway) -> Client:
        it = gateway.connect("cut")
        for sql in queries:
            found = it.query(sql)
            if found.code:
                raise ValueError(f"{sql}: {found.errors}")
        return it

    return made


CURSOR = "DECLARE c CURSOR FOR SELECT no FROM orders"
PORTAL = parse("SELECT no FROM orders", "s") + bind(portal="p", name="s")
STATES: Dict[str, Callable[[Gateway], Client]] = {
    "before its start": lambda gateway: bare(gateway, b""),
    "within its start": lambda gateway: bare(gateway, startup("cut")[:9]),
    "once its start was sent, during OPEN": lambda gateway: bare(gateway, startup("cut")),
    "during OPEN, with a cursor after it": lambda gateway: bare(gateway, startup("cut") + message(b"Q", text(CURSOR))),
    "idle": asked("SELECT 1"),
    "within a message": lambda gateway: begun(gateway, message(b"Q", text(WRITE))[:12]),
    "after Parse": lambda gateway: begun(gateway, parse("SELECT no FROM orders", "s") + FLUSH, 1),
    "after Bind": lambda gateway: begun(gateway, PORTAL + FLUSH, 2),
    "after Describe": lambda gateway: begun(gateway, PORTAL + describe(b"P", "p") + FLUSH, 3),
    "in a portal": lambda gateway: begun(gateway, PORTAL + execute("p", 1) + FLUSH, 4),
    "in a portal within a transaction": lambda gateway: begun(gateway, message(b"Q", text("BEGIN")) + PORTAL + execute("p", 1) + FLUSH, 6),
    "in COPY": lambda gateway: begun(gateway, message(b"Q", text(f"COPY ({LARGE}) TO STDOUT")), 3),
    "in a large answer": lambda gateway: begun(gateway, message(b"Q", text(LARGE)), 3),
    "with a cursor": asked(CURSOR, "FETCH 1 FROM c"),
    "with a cursor in a transaction": asked("BEGIN", CURSOR),
    "with a cursor, in a failed message": lambda gateway: begun(gateway, message(b"Q", text(CURSOR)) + bind(name="none") + FLUSH, 3),
    "with a statement at work": lambda gateway: begun(gateway, message(b"Q", text(CURSOR)) + message(b"Q", text(SLOW)), 2),
    "with nine statements": lambda gateway: begun(
        gateway, (message(b"Q", text("SELECT no FROM orders"))) * 9 + message(b"Q", text(CURSOR))
    ),
}


def cut(it: Client, resets: bool) -> None:
    """Ends a connection without a word: by FIN, or by RST."""
    if resets:
        it.socket.setsockopt(socket.SOL_SOCKET, socket.SO_LINGER, struct.pack("ii", 1, 0))
    it.close()


def cut_off(gateway: Gateway) -> Iterator[Case]:
    """A client that is cut off in each state frees what it held: another's write is done within a second of what still runs."""
    begin = time.monotonic()
    with gateway.connect() as it:
        it.query(SLOW)
    slow = time.monotonic() - begin
    with gateway.connect() as other:
        for resets in (False, True):
            for name, starts in STATES.items():
                cut(starts(gateway), resets)
                begin = time.monotonic()
                done = writes_within(other, WRITE, 1.0 + 3 * slow)
                most = 1.0 + (3 * slow if "work" in name or "large" in name or "COPY" in name else 0)
                took = time.monotonic() - begin
                yield f"{name}, by {'RST' if resets else 'FIN'}: a write within {most:.1f} s", (done, took < most or round(took, 1)), (
                    True,
                    True,
                )
        yield "sessions are free", all_sessions(gateway, 1), ("", "53300", "")


def all_sessions(gateway: Gateway, held: int) -> Tuple[str, str, str]:
    """Connects 255 clients, those held counted; how the last was refused, how the next was, and how one is once another has left."""
    time.sleep(0.3)
    clients: List[Client] = []
    try:
        while len(clients) < 255 - held:
            clients.append(gateway.connect("many"))
        last = ""
    except OSError as fault:
        last = f"{len(clients)} clients: {fault}"
    except Exception as fault:
        last = f"{len(clients)} clients: {fault}"
    more = refused(lambda: gateway.connect("many"))
    if clients:
        clients.pop().leave()
    time.sleep(0.3)
    then = refused(lambda: gateway.connect("many"))
    for it in clients:
        it.close()
    return last, more, then


# The engine killed


def answered_again(it: Client, seconds: float = 5.0) -> str:
    """The code of the first answer other than 57P01, or a text where there is none in time. A client that is waited for closes nothing."""
    end = time.monotonic() + seconds
    while time.monotonic() < end:
        found = it.query("SELECT id FROM parts WHERE id = 1")
        if found.code not in ("57P01", "25P02"):
            return found.code if found.code else "answered" if found.texts == [("1",)] else f"wrong rows: {found.texts}"
        if found.status == "E":
            it.query("ROLLBACK")
        time.sleep(0.02)
    return "57P01 all the time"


def killed_states() -> Dict[str, Tuple[Callable[[Gateway], Client], bool]]:
    """How a client is put in each state, and whether a statement is at work then, which is answered 57P01."""
    longer = SLOW.replace("mid b", "mid b, people c, people d, people e, people f")
    slow, large = message(b"Q", text(longer)), message(b"Q", text(LARGE.replace("mid b", "mid b, people c")))
    return {
        "idle": (asked("SELECT 1"), False),
        "after Parse": (lambda gateway: begun(gateway, parse("SELECT no FROM orders", "s") + SYNC, 2), False),
        "with a cursor": (asked(CURSOR, "FETCH 1 FROM c"), False),
        "in a transaction": (asked("BEGIN", CURSOR), False),
        "with a statement at work": (lambda gateway: begun(gateway, slow), True),
        "with a portal at work": (lambda gateway: begun(gateway, parse(longer) + bind() + execute() + SYNC), True),
        "with a COPY at work": (lambda gateway: begun(gateway, message(b"Q", text(f"COPY ({longer}) TO STDOUT"))), True),
        "in a large answer": (lambda gateway: begun(gateway, large, 3), True),
    }


def killed(gateway: Gateway) -> Iterator[Case]:
    """The engine is killed in each state: a client that was at work is answered 57P01, everybody's next statement is answered, objects made stay."""
    (gateway.folder / "files/more.csv").write_text("n\n7\n", encoding="utf-8")
    with gateway.connect() as owner, gateway.connect("ann") as ann:
        yield "an object", owner.query(
            "CREATE FOREIGN TABLE more (n integer) SERVER files OPTIONS (filename 'more.csv', header 'true')"
        ).code, ""
        yield "an object less", owner.query("DROP FOREIGN TABLE big").code, ""
        for name, (starts, is_at_work) in killed_states().items():
            with starts(gateway) as it:
                time.sleep(0 if "large" in name else 0.1)
                pid = gateway.engine()
                gateway.kill_engine()
                if is_at_work:
                    yield f"{name}: who was at work", ends_with_error(it.raw(), "57P01"), True
                yield f"{name}: a statement after that", answered_again(it), "answered"
                if "cursor" in name or "transaction" in name:
                    yield f"{name}: its cursor", it.query("FETCH 1 FROM c").code, "34000"
                yield f"{name}: another client", (answered_again(ann), answered_again(owner)), ("answered", "answered")
                yield f"{name}: the engine is another one", gateway.engine() not in (0, pid), True
                yield f"{name}: a table made since", owner.query("SELECT n FROM more").texts, [("7",)]
                yield f"{name}: a table dropped since", owner.query("SELECT id FROM big").code, "42P01"
                yield f"{name}: a write", it.query("INSERT INTO orders VALUES (90, 1, 1)").code, ""


def killed_often(gateway: Gateway) -> Iterator[Case]:
    """The engine is killed five times in a row, as soon as it runs again, while clients connect."""
    with gateway.connect() as it:
        for _ in range(5):
            end = time.monotonic() + 5
            while not gateway.engine() and time.monotonic() < end:
                time.sleep(0.002)
            gateway.kill_engine()
            refused(lambda: gateway.connect("ann"))
        yield "an old client", answered_again(it), "answered"
        end = time.monotonic() + 5
        while (code := refused(lambda: gateway.connect("ann"))) == "57P03" and time.monotonic() < end:
            time.sleep(0.05)
        yield "a new one is taken within 5 s", code, ""
        with gateway.connect("ann") as new:
            yield "a new one", answered_again(new), "answered"


# Messages at random

LETTERS = b"QPBDECSHXFfdcp"
PIECES = [
    b"\0",
    b"SELECT 1\0",
    b"a\0",
    b"\0\1",
    b"\0\2",
    b"\xff\xff\xff\xff",
    b"S",
    b"P",
    b"\0\0",
    b"\0\0\0\x14",
    b"SELECT $1, $2\0",
    b"FETCH 3 FROM c\0",
    b"BEGIN\0",
    b"COPY parts TO STDOUT\0",
    b"SELECT relname FROM pg_class WHERE oid = ANY('{1}'::int[])\0",
    b"DECLARE c CURSOR FOR SELECT id FROM parts\0",
    b"\xff",
    b"SELECT ';\0",
    b"/* \0",
    b"select [[[ from pg_class\0",
    b"SET\0",
    b"SHOW\0",
    b"FETCH\0",
    b"COPY\0",
    b"COPY (\0",
    b"SELECT\0",
    b"SELECT * FROM\0",
    b"ROLLBACK\0",
    b"SELECT 1::\0 pg_x",
    b"select array( from pg_class\0",
    b"= any from pg_a\0",
    b"select pg_class :: regclass :: x ( from pg_class\0",
    b"DEALLOCATE\0",
    b"SAVEPOINT\0",
    b"CLOSE ALL\0",
    b"CLOSE\0",
    b"SELECT U&'\\0041'\0",
    b"SELECT E'\\",
    b"$$",
    b"SET a =\0",
    b"SHOW ALL\0",
    b"DISCARD ALL\0",
]
SOUND = [
    message(b"Q", text("SELECT * FROM parts")),
    parse("SELECT name FROM parts WHERE id = $1", "s"),
    bind([b"1"], name="s"),
    describe(b"S", "s"),
    describe(),
    execute("", 1),
    execute(),
    SYNC,
    FLUSH,
    message(b"C", b"S" + text("s")),
    message(b"Q", text("SELECT relname FROM pg_class")),
    message(b"Q", text("COPY (SELECT id FROM parts) TO STDOUT CSV")),
    bind([struct.pack("!q", 1)], name="s", forms=[1], results=[1]),
]


def mutated(pick: random.Random) -> bytes:
    """A sound dialogue with bytes changed, cut, doubled or with other lengths."""
    data = bytearray(b"".join(pick.choice(SOUND) for _ in range(pick.randrange(1, 7))))
    for _ in range(pick.randrange(4)):
        at = pick.randrange(len(data))
        change = pick.randrange(4)
        if change == 0:
            data[at] = pick.randrange(256)
        elif change == 1:
            del data[at : at + pick.randrange(9)]
        elif change == 2:
            data[at:at] = data[at : at + pick.randrange(20)]
        else:
            data[at:at] = struct.pack("!i", pick.choice([-1, 0, 3, 5, 1 << 16, 1 << 30, (1 << 31) - 1, -(1 << 31)]))
        data = data or bytearray(b"Q")
    return bytes(data)


def random_bytes(pick: random.Random) -> bytes:
    """What one client sends: bytes, a start that is broken, messages of pieces, or a changed dialogue."""
    kind = pick.random()
    if kind < 0.08:
        return bytes(pick.randrange(256) for _ in range(pick.randrange(64)))
    if kind < 0.16:
        start = bytearray(startup("fuzz", database="fedq"))
        start[pick.randrange(len(start))] = pick.randrange(256)
        return bytes(start)
    if kind < 0.6:
        pieces = (b"".join(pick.choice(PIECES) for _ in range(pick.randrange(6))) for _ in range(pick.randrange(1, 6)))
        return startup("fuzz") + b"".join(message(bytes([pick.choice(LETTERS)]), it) for it in pieces)
    return startup("fuzz") + mutated(pick)


def answered_whole(gateway: Gateway, data: bytes) -> bool:
    """Sends bytes and no more; whether the server closes within 10 seconds."""
    with socket.create_connection(("127.0.0.1", gateway.port), 10) as it:
        try:
            it.sendall(data)
            it.shutdown(socket.SHUT_WR)
            while it.recv(1 << 16):
                pass
        except socket.timeout:
            return False
        except OSError:
            pass
        return True


def random_messages(count: int, seed: int = 1) -> Cases:
    """Sends random messages of the given number of clients."""

    def messages_at_random(gateway: Gateway) -> Iterator[Case]:
        pick = random.Random(seed)
        hung = []
        for number in range(count):
            data = random_bytes(pick)
            if not answered_whole(gateway, data):
                hung.append((number, data))
                if len(hung) > 2:
                    break
        yield f"{count} clients of random messages: those that hang", hung, []
        with gateway.connect() as it:
            yield "the next client", it.query("SELECT count(*) FROM people").texts, [("3",)]
        yield "sessions are free", all_sessions(gateway, 0), ("", "53300", "")

    return messages_at_random


# Statements that need too much

ENDLESS = "WITH RECURSIVE r(n) AS (SELECT 1 UNION ALL SELECT n + 1 FROM r) SELECT count(*) FROM r, pg_catalog.pg_class"
HOSTILE = [
    ENDLESS,
    ENDLESS.replace("count(*)", "n"),
    "SELECT count(*) FROM pg_attribute a, pg_attribute b, pg_attribute c, pg_attribute d, pg_type e, pg_type f",
    "SELECT load_extension('x') FROM pg_class",
    "SELECT load_extension('x.so', 'y') FROM pg_catalog.pg_class",
    "SELECT readfile('/etc/hostname') FROM pg_class",
    "SELECT writefile('{0}/written', 'x') FROM pg_class",
    "ATTACH '{0}/attached' AS pg_x",
    "SELECT * FROM pg_class; ATTACH DATABASE '{0}/attached' AS y",
    "PRAGMA database_list",
    "SELECT * FROM pragma_database_list, pg_class",
    "SELECT * FROM pg_class WHERE 1 IN (SELECT 1 FROM pragma_table_info('pg_class'))",
    "SELECT name, sql FROM sqlite_master, pg_class",
    "VACUUM INTO '{0}/written'",
    "SELECT hex(zeroblob(500000000)) FROM pg_class",
    "SELECT randomblob(900000000) FROM pg_class",
    "SELECT printf('%.*c', 900000000, 'x') FROM pg_class",
    "SELECT replace(hex(zeroblob(9000)), '0', hex(zeroblob(90000))) FROM pg_class",
    "SELECT repeat('x', 2000000000) FROM pg_class",
    "SELECT lpad('x', 2000000000, 'y') FROM pg_class",
    "SELECT group_concat(hex(zeroblob(100000))) FROM pg_attribute a, pg_attribute b",
    "SELECT 1 FROM pg_class WHERE '" + "a" * 40 + "!' ~ '^(a+)+$'",
    "SELECT 1 FROM pg_class WHERE '" + "a" * 2000 + "' LIKE '" + "%a" * 40 + "%b'",
    "SELECT 1 FROM pg_class WHERE '" + "a" * 30000 + "' ~ '" + "a?" * 3000 + "a" * 3000 + "'",
    "SELECT " + "(" * 50000 + "1" + ")" * 50000 + " FROM pg_class",
    "SELECT '" + "x" * 900000 + "' FROM pg_class",
    "SELECT 1 FROM pg_class WHERE oid IN (" + "1," * 200000 + "1)",
    "SELECT " + "1 + " * 100000 + "1 FROM pg_class",
    "SELECT " + "NOT " * 100000 + "TRUE FROM pg_class",
    "SELECT 1 FROM " + "pg_class a, " * 100 + "pg_class b",
    "SELECT generate_series(1, 2000000000) FROM pg_class",
    "SELECT * FROM generate_series(1, 2000000000) g, pg_class",
    "SELECT json_group_array(a.attname) FROM pg_attribute a, pg_attribute b, pg_attribute c",
    "INSERT INTO pg_class (relname) VALUES ('x')",
    "DELETE FROM pg_class",
    "DROP TABLE pg_class",
    "UPDATE pg_class SET relname = 'x'",
    "WITH x AS (SELECT 1) DELETE FROM pg_class",
    "WITH x AS (SELECT 1) INSERT INTO pg_class (relname) SELECT 'x' FROM pg_class",
    "SELECT sqlite_version(), sqlite_compileoption_get(1) FROM pg_class",
    "SELECT fts3_tokenizer('simple') FROM pg_class",
    "SELECT 1 ::" + "x::" * 50000 + "x FROM pg_class",
]

FORBIDDEN = "load_ext file( ATTACH PRAGMA pragma sqlite_master VACUUM INSERT DELETE DROP UPDATE".split()


def memory(pid: int) -> int:
    """The resident memory of a process in MB."""
    with open(f"/proc/{pid}/status", encoding="ascii") as it:
        return next(int(line.split()[1]) // 1024 for line in it if line.startswith("VmRSS"))


def hostile(gateway: Gateway) -> Iterator[Case]:
    """Queries of the catalogue that need too much are refused or end in 5 seconds, others go on meanwhile, and no file is touched."""
    limit = 1.0
    for pattern in HOSTILE:
        sql = pattern.replace("{0}", str(gateway.folder))
        name = f"{sql[:100]}{'..' if len(sql) > 100 else ''}"
        with Others(gateway) as others, gateway.connect("ann", seconds=10) as it:
            begin = time.monotonic()
            try:
                found: Optional[Answer] = it.query(sql)
            except (OSError, ValueError) as fault:
                found = None
                yield f"{name}: an answer", f"{type(fault).__name__}: {fault}", "an answer"
            took = time.monotonic() - begin
            time.sleep(0.05)
        yield f"{name}: ends within 5 s", took < 5 or round(took, 1), True
        yield f"{name}: the longest that another client waited is less than {limit} s", others.longest < limit or round(
            others.longest, 1
        ), True
        yield f"{name}: the other's answers", others.wrong, []
        if found is None and took > 9:
            return
        forbidden = any(word in sql for word in FORBIDDEN)
        if forbidden and found:
            yield f"{name}: is refused", found.code != "", True
    yield "no file was written", [it for it in ("attached", "written") if (gateway.folder / it).exists()], []
    yield "memory in MB is less than 500", memory(gateway.process.pid) < 500 or memory(gateway.process.pid), True
    with gateway.connect() as it:
        yield "the catalogue is whole", it.query("SELECT relname FROM pg_class WHERE relname = 'parts'").texts, [("parts",)]


# Clients that read nothing, cancel, limits


def stalled(gateway: Gateway) -> Iterator[Case]:
    """A client that reads nothing of a large answer, and one that says nothing: others wait no longer than for the statement that runs."""
    begin = time.monotonic()
    with gateway.connect() as it:
        it.send(message(b"Q", text(LARGE)))
        wanted = it.raw()
    alone = time.monotonic() - begin
    silent = bare(gateway, startup("silent")[:5])
    with gateway.connect("slow") as it, Others(gateway) as others:
        it.send(message(b"Q", text(LARGE)))
        time.sleep(alone + 1)
        before = len(others.times)
        time.sleep(1)
        later = sorted(others.times[before:])
        yield "others while it stalls: answers in a second", len(later) > 100 or len(later), True
        yield "others while it stalls: median in ms is less than 20", bool(later) and later[len(later) // 2] < 0.02 or later[
            len(later) // 2 : len(later) // 2 + 1
        ], True
        yield f"the longest wait is less than {alone + 1:.1f} s", others.longest < alone + 1 or others.longest, True
        yield "memory in MB is less than 400", memory(gateway.process.pid) < 400 or memory(gateway.process.pid), True
        yield "then it reads all", it.raw() == wanted, True
        yield "and goes on", it.query("SELECT 1").texts, [("1",)]
    silent.close()


def until_done(gateway: Gateway) -> None:
    """Returns once the statement that runs is done, since the engine takes one after the other."""
    time.sleep(0.5)
    with gateway.connect("waiting") as it:
        it.query("SELECT id FROM parts")
    time.sleep(0.5)


def spooled(gateway: Gateway) -> Iterator[Case]:
    """Past --spool-bytes a client that reads nothing is answered 53400, and nobody else is disturbed."""
    with gateway.connect("slow") as it, Others(gateway) as others:
        it.send(message(b"Q", text(LARGE)))
        until_done(gateway)
        yield "past the bound", ends_with_error(it.raw(), "53400"), True
        yield "and it goes on", it.query("SELECT 1").texts, [("1",)]
        it.send(message(b"Q", text(f"COPY ({LARGE}) TO STDOUT")))
        until_done(gateway)
        yield "COPY past the bound", ends_with_error(it.raw(), "53400"), True
    with gateway.connect("fast") as it, Others(gateway) as others:
        begin = time.monotonic()
        it.send(message(b"Q", text(LARGE)))
        yield "who reads is not refused", it.raw().endswith(b"C\0\0\0\x11SELECT 90000\0Z\0\0\0\5I"), True
        took = time.monotonic() - begin
    yield "others wait no longer than for that statement", (others.wrong, others.longest < took + 1), ([], True)


def ends_with_error(data: bytes, code: str) -> bool:
    """Whether an answer ends with an error of this code and ReadyForQuery."""
    at = data.rfind(b"SERROR\0")
    return at >= 5 and code in fields_of(data[at:-6]).values() and data[at - 5 : at] == b"E" + struct.pack("!I", len(data) - 6 - at + 4)


def cancelled(gateway: Gateway) -> Iterator[Case]:
    """Cancel of what runs, of what waits, of nothing, and by a wrong key."""
    longer = SLOW.replace("mid b", "mid b, people c, people d")
    with gateway.connect() as one, gateway.connect() as two, gateway.connect() as three:
        one.send(message(b"Q", text(longer)))
        time.sleep(0.2)
        two.send(message(b"Q", text(longer)))
        time.sleep(0.2)
        begin = time.monotonic()
        wrong = two.key
        two.key = (wrong[0], wrong[1] ^ 1)
        two.cancel()
        two.key = wrong
        two.cancel()
        found = two.answer()
        yield "what waits", (found.code, found.status), ("57014", "I")
        one.cancel()
        yield "what runs", one.answer().code, "57014"
        yield "both in less than a second", time.monotonic() - begin < 1, True
        yield "after that", [it.query("SELECT 1").texts for it in (one, two)], [[("1",)]] * 2
        three.cancel()
        yield "cancel of nothing", three.query("SELECT 1").texts, [("1",)]
        three.send(message(b"Q", text(SLOW)))
        time.sleep(0.05)
        stranger, three.key = three.key, (three.key[0], three.key[1] ^ 5)
        three.cancel()
        yield "a wrong key cancels nothing", three.answer().code, ""
        three.key = stranger


# The groups, each over a gateway of its own


def with_spool(program: str) -> Gateway:
    """A gateway whose temporary files hold a megabyte at most."""
    return small(program, "--spool-bytes", "1000000")


Group = Tuple[Callable[[str], Gateway], List[Cases]]
QUICK: List[Group] = [(with_users, [passwords]), (small, [random_messages(200), crowd(20, 10)]), (with_ports, [words]), (with_tls, [tls])]
LONG: List[Group] = [
    (small, [crowd(200, 40)]),
    (small, [cut_off]),
    (small, [killed]),
    (small, [killed_often]),
    (small, [stalled]),
    (with_spool, [spooled]),
    (Gateway, [cancelled]),
    (small, [hostile]),
    (small, [random_messages(5000, seed=2)]),
]
