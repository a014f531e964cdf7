"""Queries of pg_catalog and information_schema, answered by a SQLite database in memory that is made of the program's objects.
Nothing is claimed of these answers but that they serve the clients of docs/CLIENTS.md. A client may read these tables and nothing else,
in bounds of time and memory."""
import re, sqlite3, time
from concurrent.futures import Future, ThreadPoolExecutor
from typing import Any, Dict, List, NamedTuple, Optional, Sequence, Tuple

from ..sql import Token, with_depth
from .catalogue_functions import SAFE, make_functions
from .catalogue_rows import fill
from .messages import Refused
from .objects import Object
from .outputs import names_of
from .translation import translated

SECONDS, MOST_ROWS, MOST_BYTES, HEAP_BYTES = 2.0, 100_000, 1 << 25, 1 << 27
STEPS = 10_000
MOST_CHARACTERS, MOST_DEPTH = 1 << 16, 200
READS = (sqlite3.SQLITE_SELECT, sqlite3.SQLITE_READ, sqlite3.SQLITE_RECURSIVE)
# Tables that are always empty: a query of one that SQLite cannot read has no rows. (Such queries look for keys, indexes, constraints, triggers.)
EMPTY = frozenset("pg_index pg_constraint pg_trigger pg_policy pg_publication pg_rewrite pg_inherits pg_sequence pg_enum pg_range "
                  "pg_depend pg_event_trigger "
                  "pg_statistic_ext".split())
# Texts of drivers, as they are after `translated`.
KNOWN = (('( select s . r , ( current_schemas ( false ) ) as "nspname" from ( SELECT 0 AS value WHERE 0 ) as "s" ( r ) )',
          "( SELECT 1 AS r, 'public' AS nspname )"), )


class Asker(NamedTuple):
    """The session of the query."""
    user: str
    database: str
    pid: int
    settings: Dict[str, str]


class Answer(NamedTuple):
    """Names, types by number, rows of texts (None is NULL), and the tag."""
    names: List[str]
    oids: List[int]
    rows: List[List[Optional[str]]]
    tag: str


class Catalogue:
    """The database. All of it is used in one thread of its own, so that a long question holds nobody up."""

    def __init__(self, owner: str) -> None:
        self.owner, self.version = owner, -1
        self.thread = ThreadPoolExecutor(1, "catalogue")
        self.db: Optional[sqlite3.Connection] = None
        self.asker = Asker(owner, "fedq", 0, {})
        self.tables: Dict[str, Object] = {}
        self.until = 0.0
        self.is_own_table = False

    def ask(self, found: Sequence[Token], asker: Asker, objects: Any) -> Future:
        """The answer to one query, by the thread. Fails with Refused: 54000 where it is long, 54001 where it is nested deeply."""
        judge_size(found)
        known, version = list(objects.known.values()), objects.version
        return self.thread.submit(self.answer, tuple(found), asker, known, version)

    def answer(self, found: Sequence[Token], asker: Asker, known: List[Object], version: int) -> Answer:
        self.asker = asker
        if version != self.version:
            self.make(known)
            self.version = version
        self.own_rows()
        text = " ".join([it.raw for it in translated(list(found))])  # (it is no request line: a text may have a line end)
        for part, other in KNOWN:
            text = text.replace(part, other)
        try:
            names, rows = self.read(text)
        except (sqlite3.Error, sqlite3.Warning, MemoryError, ValueError, OverflowError) as fault:
            if "interrupted" in str(fault):
                raise Refused("57014", f"the question to the catalogue took longer than {SECONDS:.0f} seconds",
                              "restrict it by WHERE, or query fewer tables")
            if self.is_own_table:
                raise Refused("42P01", "the tables of SQLite itself are not in the catalogue", "query pg_class for the tables")
            names = names_of(found, {}) or []
            if not names or not any(it.value in EMPTY for it in found):
                raise Refused("0A000", f"the gateway's catalogue cannot answer this: {str(fault)[:200]}",
                              "query pg_catalog and information_schema more simply: it is no PostgreSQL, but a copy of its tables' names")
            rows = []
        oids = [kind_of([row[at] for row in rows]) for at in range(len(names))]
        return Answer(names, oids, [[text_of(it) for it in row] for row in rows], f"SELECT {len(rows)}")

    def make(self, known: List[Object]) -> None:
        """Makes the database anew of the objects."""
        sqlite3.register_converter("BOOLEAN", lambda it: it in (b"1", b"t"))
        if self.db:
            self.db.close()
        self.db = sqlite3.connect(":memory:", detect_types=sqlite3.PARSE_DECLTYPES, isolation_level=None)
        self.db.execute(f"PRAGMA hard_heap_limit = {HEAP_BYTES}")
        make_functions(self.db, self)
        self.tables = {it.name: it for it in known if it.kind == "table"}
        fill(self.db, known, self.owner)
        self.db.execute("SELECT * FROM json_each('[]')")  # (else the session of the query would make it, which may make nothing)
        self.db.set_authorizer(self.may)
        self.db.set_progress_handler(lambda: time.monotonic() > self.until, STEPS)

    def own_rows(self) -> None:
        """The rows of this session alone."""
        self.db.set_authorizer(lambda *_: sqlite3.SQLITE_OK)
        self.until = time.monotonic() + SECONDS
        self.db.execute("DELETE FROM pg_catalog.pg_roles")
        self.db.execute("DELETE FROM pg_catalog.pg_settings")
        roles = [(10, self.owner)] + ([] if self.asker.user == self.owner else [(11, self.asker.user)])
        for oid, name in roles:
            self.db.execute("INSERT INTO pg_catalog.pg_roles (oid, rolname, rolsuper, rolinherit, rolcanlogin, rolcreaterole, "
                            "rolcreatedb, rolreplication, rolbypassrls, "
                            "rolconnlimit) VALUES (?, ?, ?, 1, 1, 0, 0, 0, 0, -1)", (oid, name, oid == 10))
        self.db.executemany("INSERT INTO pg_catalog.pg_settings (name, setting) VALUES (?, ?)", self.asker.settings.items())
        self.db.set_authorizer(self.may)

    def may(self, action: int, table: Optional[str], function: Optional[str], *_: Any) -> int:
        """What a question may do: read tables, and call functions that are known to end soon."""
        if action == sqlite3.SQLITE_READ and table and table.lower().startswith("sqlite_"):
            self.is_own_table = True
            return sqlite3.SQLITE_DENY
        if action in READS or action == sqlite3.SQLITE_FUNCTION and function in SAFE:
            return sqlite3.SQLITE_OK
        return sqlite3.SQLITE_DENY

    def read(self, text: str) -> Tuple[List[str], List[Tuple[Any, ...]]]:
        """Names and rows of a query, within the bounds."""
        self.until, self.is_own_table = time.monotonic() + SECONDS, False
        cursor = self.db.execute(text)
        try:
            rows, size = [], 0
            for row in cursor:
                rows.append(row)
                size += sum(len(it) for it in row if isinstance(it, (str, bytes)))
                if len(rows) > MOST_ROWS or size > MOST_BYTES:
                    raise Refused("54000", "the answer of the catalogue is too large", "restrict the question by WHERE or LIMIT")
            return [own_name(it[0]) for it in cursor.description or ()], rows
        finally:
            cursor.close()

    def close(self) -> None:
        self.thread.shutdown(wait=False)


def judge_size(found: Sequence[Token]) -> None:
    """Fails with Refused where a query is too long, or nested too deeply, to be translated and judged in little time."""
    if len(found) > MOST_CHARACTERS or sum(len(it.raw) + 1 for it in found) > MOST_CHARACTERS:
        raise Refused("54000", f"a question to the catalogue has at most {MOST_CHARACTERS:,} characters", "query in parts")
    if max((depth for _, depth in with_depth(found)), default=0) > MOST_DEPTH:
        raise Refused("54001", f"a question to the catalogue is nested at most {MOST_DEPTH} levels deep", "query more simply")


def kind_of(values: Sequence[Any]) -> int:
    """The type, by number, of a column with these values."""
    kinds = {type(it) for it in values if it is not None}
    if kinds == {bool}:
        return 16
    if kinds and kinds <= {int, bool}:
        return 20
    return 701 if kinds and kinds <= {int, float, bool} else 25


def text_of(value: Any) -> Optional[str]:
    if isinstance(value, bool):
        return "t" if value else "f"
    return value.decode("utf-8", "replace") if isinstance(value, bytes) else None if value is None else str(value)


def own_name(name: str) -> str:
    """What PostgreSQL calls an output that SQLite calls by its text."""
    found = re.match(r"\s*([a-z_0-9]+)\s*\(", name)
    return found[1] if found else "?column?" if not re.match(r"[\w ]+$", name) else name
