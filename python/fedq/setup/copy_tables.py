"""Copies of tables and views of SQLite as CSV, by Python's sqlite3, read-only."""
import os, re
from typing import Iterator, List, Tuple

from ..terminal import path_word
from .advice import Refused, Report, listed, own_name, plain_name
from .copy_cells import MOST_COLUMNS, Cells, improved
from .copy_files import Made, csv_bytes
from .csv_files import MOST_ROWS
from .databases import bind_sqlite, log_of, text_of


def read_only(path: str) -> "sqlite3.Connection":
    """A connection that only reads, and leaves no file. Refused where there is no database."""
    import sqlite3
    if not os.path.isfile(path):
        raise Refused(" is not there, or is no file")
    if os.path.exists(f"{path}-journal") and os.path.getsize(f"{path}-journal"):
        out = f"sqlite3 {path_word(path)} 'PRAGMA user_version' rolls it back"
        raise Refused(f" has the journal of a write that broke off, or goes on: {out}")
    with open(path, "rb") as file:
        is_logged = file.read(20)[18:20] == b"\2\2"
    name = "file:" + re.sub(r"[?#%]", lambda it: f"%{ord(it[0]):02x}", os.path.abspath(path))
    base = sqlite3.connect(name + ("?immutable=1" if is_logged and not log_of(path) else "?mode=ro"), uri=True)
    base.text_factory = text_of
    return base


def tables_of(path: str) -> List[str]:
    """The tables and views of a database that cannot be bound. Refused where it is none."""
    try:
        bound = bind_sqlite(path, Report(path))
    except Exception:  # (what is refused as a source may be read all the same)
        bound = []
    base = read_only(path)
    try:
        found = base.execute("SELECT name FROM sqlite_master WHERE type IN ('table', 'view') AND name NOT LIKE 'sqlite_%' ORDER BY name")
        shadow = re.compile("|".join(f"{re.escape(it)}_(?:data|idx|content|docsize|config|node|parent|rowid)" for it, in base.execute(
            "SELECT name FROM sqlite_master WHERE sql LIKE 'CREATE VIRTUAL%'")) or "(?!)")
        return [it for it, in found if it not in bound and not shadow.fullmatch(it)]
    finally:
        base.close()


def cell_text(value: object) -> str:
    """A stored value as a text: a real by the shortest text that means it, a blob by hexadecimal digits."""
    return value if isinstance(value, str) else value.hex().upper() if isinstance(value, bytes) else repr(value)


def rows_of(base: "sqlite3.Connection", table: str) -> Tuple[List[str], Iterator[tuple]]:
    """The names of a table's columns, and its rows."""
    found = base.execute('SELECT * FROM "' + table.replace('"', '""') + '"')
    return [it[0] for it in found.description], found


def copy_table(path: str, table: str, report: Report) -> Made:
    """The copy of a table or a view. Refused where it has no exact copy."""
    base = read_only(path)
    try:
        names, found = rows_of(base, table)
        rows = found.fetchmany(MOST_ROWS + 1)
    except UnicodeError:
        raise Refused(f" table {table} has a name, or a column, that is no UTF-8: rename it") from None
    except Exception as error:  # (of SQLite: whatever a view cannot work out)
        if type(error).__module__ != "sqlite3":
            raise
        raise Refused(f" table {table} cannot be read: {error}") from None
    finally:
        base.close()
    if len(rows) > MOST_ROWS:
        raise Refused(f" table {table} has more than {MOST_ROWS:,} rows")
    taken, columns = set(), []  # type: set, List[Cells]
    for at, (name, values) in enumerate(zip(names, zip(*rows) if rows else [()] * len(names)), 1):
        kinds = {type(it) for it in values} - {type(None)}
        did = ["hexadecimal digits for bytes"] if bytes in kinds else []
        cells = [None if it is None else cell_text(it) for it in values]
        if any(it and ("\0" in it or re.search("[\ud800-\udfff]", it)) for it in cells):
            report.leave_out(f" table {table}: {name} has U+0000, or is no UTF-8")
            continue
        columns.append(Cells(own_name(plain_name(name, at), taken), name, cells, did))
    if len(columns) > MOST_COLUMNS:
        rest = listed([it.origin for it in columns[MOST_COLUMNS:]])
        report.leave_out(f" table {table}: {rest}, as a table has at most {MOST_COLUMNS} columns")
    if not columns:
        raise Refused(f" table {table} has no column that can be copied")
    columns = improved(columns[:MOST_COLUMNS], report)
    return Made(csv_bytes(columns), [f"table {table} as CSV"], columns)
