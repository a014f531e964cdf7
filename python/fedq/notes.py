"""What fedq-setup knows of a column that its type does not say. fedq-setup writes it into its script, as a comment after the statement of
the table, and fedq-shell reads it there, and says a hint under a result that orders or compares such a column."""
from __future__ import annotations

import re
from dataclasses import dataclass
from typing import Iterable, List

from .names import quoted_name

# Numbers with a point; a number that is written in two ways; numbers with one unit, and with several; dates that begin with the day; cells
# of several kinds; a text column with empty cells.
KINDS = ("decimal", "two_ways", "unit", "units", "day_first_date", "mixed", "empty_text")
COPIED = {"decimal", "unit"}  # `fedq-setup --copy` makes whole numbers of these
# A comment may end a line of a script, and has no line of its own: `fedq run --init` takes one statement a line.
MARK = "-- columns: "
NAME = r'("(?:[^"]|"")*"|[^\s".,]+)'
NOTE = re.compile(rf"{NAME}\.{NAME} ({'|'.join(KINDS)})(?=,|\s*$)")


@dataclass(frozen=True)
class ColumnNote:
    """One note of a column of a foreign table; `table` and `column` are the names in SQL, without quotes, `kind` is one of KINDS."""
    table: str
    column: str
    kind: str


def comment_of(notes: Iterable[ColumnNote]) -> str:
    """The comment that follows a statement, with a blank before it: ` -- columns: t.price decimal, t.day day_first_date`. Empty where there
    is no note."""
    parts = [f"{quoted_name(it.table)}.{quoted_name(it.column)} {it.kind}" for it in notes]
    return f" {MARK}{', '.join(parts)}" if parts else ""


def notes_of(script: str) -> List[ColumnNote]:
    """The notes of all such comments in a script, in their order."""
    found = []
    for line in script.splitlines():
        _, mark, rest = line.rpartition(MARK)
        for table, column, kind in NOTE.findall(rest if mark else ""):
            found.append(ColumnNote(plain(table), plain(column), kind))
    return found


def plain(name: str) -> str:
    """The name that a name in SQL means."""
    return name[1:-1].replace('""', '"') if name.startswith('"') else name
