"""Which limit a statement is over (54000), and which member or column a file cannot hold (55000)."""
from __future__ import annotations

import json
import os
from typing import Any, Callable, List, Mapping, Optional, Tuple

from .grammar import MOST_HIGH, MOST_SIGNS, SIGNS, Grammar
from .judging import Finding
from .rows import LIMIT, plain

MOST_ENTRIES = MOST_CORES = 8
MOST_COLUMNS = 64
MOST_READ = 1 << 22  # bytes of a file that are looked at
DEFAULT_NULL = "\\N"
Folder = Callable[[str], Tuple[str, str]]  # the kind and the path of the source of a table


def over(key: str) -> str:
    """A limit, as a sentence."""
    return f"the limit is {plain(LIMIT[key].most)} ({plain(LIMIT[key].what)})"


def limit(grammar: Grammar) -> Optional[Finding]:
    """The limit that a statement of the grammar is over."""
    if grammar.high[0] > MOST_HIGH:
        return too_high(grammar.high[1])
    for core in grammar.cores:
        if len(core.entries) > MOST_ENTRIES:
            at = core.entries[MOST_ENTRIES][2]
            return Finding(f"FROM has {len(core.entries)} entries; {over('entries')}", "join in parts: fewer tables in one request", at,
                           at + 1)
    if len(grammar.cores) > MOST_CORES:
        at = grammar.cores[MOST_CORES].begin
        hint = "one request each, or a join with a table of the values"
        return Finding(f"the query has {len(grammar.cores)} cores; {over('cores')}", hint, at, at + 1)
    if len(grammar.declared) > MOST_COLUMNS:
        at = grammar.declared[MOST_COLUMNS]
        return Finding(f"the table has {len(grammar.declared)} columns; {over('columns')}",
                       "declare those that are needed, where the file allows it", at, at + 1)
    return by_verb(grammar)


def too_high(at: int) -> Finding:
    """That an expression is too high."""
    return Finding(f"the expression is more than {MOST_HIGH} high; {over('height')}",
                   "fewer parentheses and signs in one another; long chains of AND, OR and commas are no trouble", at, at + 1)


def by_verb(grammar: Grammar) -> Optional[Finding]:
    """The limits of a statement that its text does not show."""
    words = [it.value for it in grammar.found[:4] if it.kind == "word"]
    if words[:1] == ["declare"]:
        return Finding(f"the session has as many cursors as it may; {over('cursors')}", "CLOSE one", 0, 1)
    if words[:1] in (["insert"], ["update"]):
        return Finding(f"the table, or its file, would be too large; {over('rows')}, and {over('bytes')}", "write to another table", 0, 1)
    if words[:1] == ["create"]:
        kind = {"foreign table": "table", "foreign data": "wrapper", "user mapping": "mapping"}.get(" ".join(words[1:3]), "server")
        if kind == "table":
            detail = "there are as many foreign tables as there may be, or the file is too large"
            return Finding(f"{detail}; {over('table')}, {over('rows')}, {over('bytes')}", "drop one, or divide the file", 0, 1)
        return Finding(f"there are as many as there may be; {over(kind)}", "drop one", 0, 1)
    if any(it.has_groups for it in grammar.cores) or grammar.aggregates:
        return Finding(f"too many rows are grouped; {over('groups')}", "restrict the rows in WHERE", 0, 1)
    return None


def signs(grammar: Grammar) -> str:
    """That a text that is no statement has too many signs; nothing where it has not."""
    count = sum(it.kind in ("word", "mark") and it.value in SIGNS for it in grammar.found)
    return f"the text is no statement, and has {count} of ( + - * / % NOT; {over('signs')}; " if count > MOST_SIGNS else ""


# ---------------------------------------------------------------------------------------------------- 55000


def lost(grammar: Grammar, tables: Mapping[str, Any], folder_of: Optional[Folder]) -> Optional[Finding]:
    """Which column has a text that its CSV file reads as NULL, or which members an UPDATE of JSON lines would lose."""
    name = grammar.target[0]
    table = tables.get(name)
    if table is None:
        return None
    kind, folder = folder_of(name) if folder_of else ("", "")
    if kind in ("", "csv"):
        finding = null_text(grammar, table)
        if finding or kind:
            return finding
    return lost_members(table, folder, name) if kind == "jsonl" else None


def null_text(grammar: Grammar, table: Any) -> Optional[Finding]:
    """The column that is written with the text that means NULL."""
    null = table.options.get("null", DEFAULT_NULL)
    names = [grammar.found[at].value for at in grammar.target[1]] or [it.name for it in table.columns]
    pairs = [(grammar.found[at].value, part) for at, part in grammar.sets] + [pair for row in grammar.rows for pair in zip(names, row)]
    if grammar.is_insert_of_query:
        pairs += [pair for core in grammar.cores for pair in zip(names, core.items)]
    shown = f"the text '{null}'" if null else "the empty text"
    hint = "write NULL where NULL is meant; else bind the table with another text by the option null"
    for name, part in pairs:
        token = grammar.found[part.begin]
        if part.end == part.begin + 1 and token.kind == "text" and token.value == null:
            return Finding(f"{shown} of column {name} would be read as NULL", hint, part.begin, part.end)
    texts = [it.name for it in table.columns if it.type == "text"]
    if not pairs or not texts:
        return None
    return Finding(f"{shown} would be read as NULL; it would be written to one of the columns {', '.join(texts)}", hint, 0, 1)


def lost_members(table: Any, folder: str, name: str) -> Optional[Finding]:
    """The members of the file's lines that no column reads."""
    known = {getattr(it, "member", None) or getattr(it, "options", {}).get("member", it.name) for it in table.columns}
    path = os.path.join(folder, table.options.get("filename", ""))
    members = members_beside(path, known)
    if not members:
        return None
    shown = ", ".join(members[:8]) + (", .." if len(members) > 8 else "")
    return Finding(f"lines of {name} have the members {shown}, which no column reads: the UPDATE would lose them",
                   f"declare columns for {shown}; or DELETE the rows, and INSERT them anew", 0, 1)


def members_beside(path: str, known: Any) -> List[str]:
    """The members of the objects in a file, in their order, that are not among these."""
    found: List[str] = []
    try:
        with open(path, "rb") as file:
            lines = file.read(MOST_READ).splitlines()
    except OSError:
        return found
    for it in lines:
        try:
            made = json.loads(it)
        except (ValueError, RecursionError):
            continue
        if isinstance(made, dict):
            found += [member for member in made if member not in known and member not in found]
    return found
