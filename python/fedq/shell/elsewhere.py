"""What was made elsewhere: the tables of a gateway, which knows them, and of `fedq serve`, which answers of one table alone; and what the
rows of a table show of its columns, as the notes of its script are not here."""
from __future__ import annotations

from ..lines import unescaped
from ..names import quoted_name
from ..notes import KINDS, ColumnNote
from .column_hints import MOST_READ, noted_columns, read_tokens
from .output import Rows
from .queries import entries
from .statements import tokens
from .types import types_by_engine

if False:  # (for the types alone)
    from .catalogue import Object
    from .session import Session

MOST_LOOKED_AT = 1000  # rows of a table by which its columns are judged

# What a gateway answers at its port for lines, and `fedq serve` refuses.
TABLES = ("SELECT c.table_name, c.column_name, c.data_type, c.is_nullable, f.foreign_server_name FROM information_schema.columns c "
          "JOIN information_schema.foreign_tables f ON f.foreign_table_name = c.table_name ORDER BY c.table_name, c.ordinal_position")


def know_tables(session: Session) -> bool:
    """Requests from a gateway the tables that are there now, and keeps them in the catalogue; whether it answered."""
    if not session.words.port or not session.keeper.catch_up():
        return False
    shown = Rows()
    reply = session.reply_to(TABLES, shown)
    is_gateway = bool(reply and not reply.code)
    if is_gateway:
        session.catalogue.take_tables(shown.rows)
    return is_gateway


def asked_table(session: Session, name: str) -> Object | None:
    """A table with the names and types of its columns by the engine's answers; None where there is none."""
    query, shown = f"SELECT * FROM {quoted_name(name)}", Rows()
    reply = session.reply_to(f"{query} LIMIT 0", shown) if session.keeper.catch_up() else None
    if reply and reply.code == "42P01":
        session.catalogue.objects.pop(("table", name), None)  # (somebody has dropped it)
    if not reply or reply.code:
        return None
    types = types_by_engine(query, session.code_of) or [""] * len(shown.names)
    session.catalogue.add_table(name, [(unescaped(column), kind, False) for column, kind in zip(shown.names, types)])
    return session.catalogue.get("table", name)


def know_tables_of(session: Session, text: str) -> bool:
    """Requests the tables that a statement names, or all of a gateway. Returns whether all are known then."""
    if know_tables(session):
        return True
    for _, name in entries(tokens(text)) if len(text) <= MOST_READ else ():
        asked_table(session, name)
    return False


def notes_by_rows(session: Session, text: str) -> list[ColumnNote]:
    """The notes on the columns that a statement orders, compares, groups by or counts, as fedq-setup would write them by the first rows of
    each. What was looked at once is not looked at again."""
    names = {table for _, table in entries(read_tokens(text))}
    if names - set(session.catalogue.tables):
        know_tables_of(session, text)
    tables = session.catalogue.tables
    texts = [(table, it.name) for table in names & set(tables) for it in tables[table].columns if it.type == "text"]
    for table, column in noted_columns(text, [ColumnNote(*it, kind) for it in texts for kind in KINDS]):
        if (table, column) not in session.looked_at:
            session.looked_at[table, column] = kinds_by_rows(session, table, column)
    return [ColumnNote(*it, kind) for it in texts for kind in session.looked_at.get(it, ())]


def kinds_by_rows(session: Session, table: str, column: str) -> list[str]:
    """The kinds of notes on a column of texts by its first rows."""
    from ..setup.csv_cells import Column
    from ..setup.csv_files import kinds_of_notes, written_twice
    shown = Rows()
    reply = session.reply_to(f"SELECT {quoted_name(column)} FROM {quoted_name(table)} LIMIT {MOST_LOOKED_AT}", shown)
    texts = [text for text, in shown.rows if text is not None] if reply and not reply.code else []
    seen = Column()
    seen.see(texts, range(len(texts)))
    if seen.is_decimal():
        seen.twice = written_twice(texts)
    return kinds_of_notes(seen, seen.look(), True)
