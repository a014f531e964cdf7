"""SQLite databases: which of their tables can be bound."""
import os, re
from typing import Dict, List, Optional

from ..terminal import folder_word, path_word
from .advice import Refused, Report, beside, listed, plain_stem, shown, source_name
from .csv_files import MOST_ROWS

SHAPES = {
    "orders": ("CREATE TABLE orders (id INTEGER PRIMARY KEY, part INTEGER, n INTEGER)", ("integer", "integer", "integer")),
    "people": ("CREATE TABLE people (id INTEGER PRIMARY KEY, name TEXT, active INTEGER)", ("integer", "text", "boolean")),
}

UNREAD = "of another shape than the two that fedq reads"


def opened(path: str) -> "sqlite3.Connection":
    """A connection that changes nothing on the disk, and what is known of the file; refused where the program would not open it."""
    import sqlite3
    if path.startswith("file:"):
        raise Refused(" is a URI: name the file itself")
    if path.endswith("\n"):
        raise Refused(" has a name that ends in a line end: rename it")
    if not os.path.lexists(path):
        raise Refused(" is not there: fedq would make a new database without tables: was another path meant?")
    if os.path.isdir(path):
        raise Refused(" is a folder, no database: name the file in it")
    if os.path.islink(path) or os.stat(path).st_nlink > 1:
        raise Refused(" has a second name (a link), and fedq opens no such database: cp it")
    if not os.access(path, os.R_OK | os.W_OK):
        raise Refused(" may not be read and written, and fedq opens a database for both: chmod, or cp it")
    if os.path.exists(f"{path}-journal") and os.path.getsize(f"{path}-journal"):
        out = f"sqlite3 {path_word(path)} 'PRAGMA user_version' rolls it back"
        raise Refused(f" has the journal of a write that broke off, or goes on: {out}")
    log = log_of(path)
    name = "file:" + re.sub(r"[?#%]", lambda it: f"%{ord(it[0]):02x}", os.path.abspath(path))
    base = sqlite3.connect(name + ("?mode=ro" if log else "?immutable=1"), uri=True)
    base.text_factory = bytes
    return base


def log_of(path: str) -> bool:
    """Whether a database has a log with rows in it."""
    return os.path.exists(f"{path}-wal") and os.path.getsize(f"{path}-wal") > 4096


def text_of(raw: bytes) -> str:
    """A text of a database; bytes that are no UTF-8 stay as they do in the name of a file."""
    return raw.decode(errors="surrogateescape")


def one(base: "sqlite3.Connection", sql: str) -> object:
    """The first value of a query's first row."""
    return base.execute(sql).fetchone()[0]


def unsound(base: "sqlite3.Connection", path: str) -> None:
    """Refuses a database that the program cannot open."""
    file, out = path_word(path), beside(path, "_copy.db")
    encoding = one(base, "PRAGMA encoding").decode()
    if encoding != "UTF-8":
        raise Refused(f" has texts in {encoding}: (echo \"PRAGMA encoding = 'UTF-8';\"; sqlite3 {file} .dump) | sqlite3 {out}")
    if one(base, "PRAGMA auto_vacuum"):
        raise Refused(f" has auto-vacuum: sqlite3 {file} 'PRAGMA auto_vacuum = 0; VACUUM'")
    virtual = base.execute("SELECT name FROM sqlite_master WHERE sql LIKE 'CREATE VIRTUAL%'").fetchone()
    if virtual:
        raise Refused(f" has the virtual table {text_of(virtual[0])}, and fedq opens no database with one: {recipe(path)}", by_copy=True)
    said = one(base, "PRAGMA quick_check")
    if said != b"ok":
        raise Refused(f" is damaged: {said.decode(errors='replace').splitlines()[0]}")


def recipe(path: str) -> str:
    """The command that takes all tables of a database that cannot be bound out as CSV."""
    name = source_name(plain_stem(path, "database"))
    return f"fedq-setup --sqlite {name}={folder_word(path)} --copy {beside(path, '_plain')}"


def same_text(text: str, wanted: str) -> bool:
    """Whether a table was made by a text, spaces, quotes of names and the case of words apart."""
    return re.sub(r"[\s\"`\[\]]+", "", text).lower() == re.sub(r"\s+", "", wanted).lower()


def cell_fault(kind: str, value: object) -> Optional[str]:
    """Why a stored cell is not of its column's type; nothing where it is."""
    if value is None or kind == "integer" and isinstance(value, int) or kind == "boolean" and value in (0, 1) and isinstance(value, int):
        return None
    if kind == "text" and isinstance(value, bytes):
        return "has U+0000" if b"\0" in value else None
    shape = {int: "a number", float: "a decimal", bytes: "a text or a blob"}[type(value)]
    text = value.decode(errors="replace") if isinstance(value, bytes) else str(value)
    return f"is {shape}, {shown(text)}, no {kind}" if kind != "boolean" or not isinstance(value, int) else f"is {value}, neither 0 nor 1"


def check_shape(base: "sqlite3.Connection", table: str, report: Report) -> None:
    """Whether a table can be bound: it was made by the shape's text, nothing more is on it, and each cell is of its column's type. Refused
    with what is said after the table's name."""
    text, kinds = SHAPES[table]
    made = base.execute("SELECT sql FROM sqlite_master WHERE type = 'table' AND name = ?", (table,)).fetchone()
    if not made:
        raise Refused("is not there")
    if not same_text(text_of(made[0]), text):
        raise Refused(f"not made by `{text}`")
    more = base.execute("SELECT type, name FROM sqlite_master WHERE tbl_name = ? AND type IN ('index', 'trigger')", (table,)).fetchone()
    points = [text_of(it[0]) for it in base.execute("SELECT sql FROM sqlite_master WHERE sql IS NOT NULL AND type = 'table'")]
    if more or any(re.search(rf"REFERENCES\s+[\"`\[]?{table}\b", it, re.I) for it in points):
        said = f"the {text_of(more[0])} {text_of(more[1])}" if more else "a key of another table that points at it"
        raise Refused(f"has {said}")
    if one(base, f"SELECT count(*) FROM {table}") > MOST_ROWS:
        raise Refused(f"more than {MOST_ROWS:,} rows")
    names = [it[1].decode() for it in base.execute(f"PRAGMA table_info({table})")]
    columns = ", ".join(f"typeof({it}), {it if kind != 'text' else f'CAST({it} AS BLOB)'}" for it, kind in zip(names, kinds))
    for row in base.execute(f"SELECT {columns} FROM {table} ORDER BY {names[0]}"):
        for name, kind, stored, value in zip(names, kinds, row[::2], row[1::2]):
            why = cell_fault(kind, value) if kind != "text" or stored in (b"text", b"null") else f"is of type {stored.decode()}, no text"
            if why is None and kind == "text" and value is not None and value != value.decode(errors="ignore").encode():
                why = "is no UTF-8"
            if why:
                report.fault(f" table {table}, {names[0]} {row[1]}: {name} {why}")


def says_unbound(report: Report, path: str, whys: Dict[str, List[str]]) -> None:
    """Says in one line which tables of a database cannot be bound, and the command that takes them out."""
    parts = [f"{listed(names, 12)} ({why})" for why, names in whys.items()]
    if parts:
        report.by_copy = True
        report.fault(f" has tables that cannot be bound: {'; '.join(parts)}: {recipe(path)}")
        report.taken_out = report.faults[-1]


def bind_sqlite(path: str, report: Report) -> List[str]:
    """The tables of a database that can be bound."""
    if path == ":memory:":
        return [*SHAPES]
    bound, whys = [], {}  # type: List[str], Dict[str, List[str]]
    base = opened(path)
    if os.path.exists(f"{path}-shm"):
        report.warn(f": {path}-shm is there: another program may have it open, and fedq opens no database that is in use")
    try:
        unsound(base, path)
        tables = "type IN ('table', 'view') AND name NOT LIKE 'sqlite_%'"
        found = base.execute(f"SELECT name, type FROM sqlite_master WHERE {tables} ORDER BY name").fetchall()
        for table, kind in ((text_of(name), text_of(kind)) for name, kind in found):
            count = len(report.faults)
            try:
                if table not in SHAPES or kind != "table":
                    raise Refused(UNREAD if kind == "table" else "a view")
                check_shape(base, table, report)
                if len(report.faults) == count:
                    bound.append(table)
            except Refused as refused:
                whys.setdefault(refused.why, []).append(table)
        says_unbound(report, path, whys)
    finally:
        base.close()
    if not found:
        report.fault(" has no tables")
    return bound
