"""How what is typed may go on: names of objects and columns, keywords, commands, formats and files."""
from __future__ import annotations

import os, re
from collections.abc import Iterable, Iterator

from ..names import quoted_name
from ..terminal import printable
from .queries import entries
from .statements import tokens
from .words import FORMATS

if False:  # (for the types alone)
    from .catalogue import Catalogue, Object

WORDS = ("SELECT DISTINCT FROM WHERE GROUP BY HAVING ORDER LIMIT OFFSET JOIN LEFT INNER CROSS ON AS AND OR NOT IS NULL IN LIKE "
         "BETWEEN TRUE FALSE ASC DESC INSERT INTO VALUES UPDATE SET DELETE DECLARE CURSOR FOR FETCH CLOSE CREATE DROP FOREIGN DATA "
         "WRAPPER HANDLER SERVER USER MAPPING TABLE OPTIONS IF EXISTS PUBLIC INTEGER TEXT BOOLEAN COUNT SUM MIN MAX UNION ALL").split()
BEFORE_TABLES = re.compile(r"(\b(from|join|into|update|table|table\s+if\s+exists)\s+|\bfrom\s[^()]*,\s*|^\s*\\d\s+|^\s*\\copy\s+)\"?$",
                           re.I)
FILES = re.compile(r"\s*(\\(i|o|e|save)\s|\\copy\s.*\sto\s+)'?$", re.I)
# Where words are cut: a name in quotes is completed after its quote.
DELIMITERS = " \t\n,;()<>=+*/%'\""


class Completer:
    """Completes what is typed, from the objects that a catalogue knows."""

    def __init__(self, catalogue: Catalogue, commands: Iterable[str]) -> None:
        self.catalogue, self.commands = catalogue, commands

    def ways(self, text: str, before: str, whole: str = "") -> list[str]:
        """How `text` may go on where `before` is the line before it. `whole` is the statement, also after the cursor."""
        if not before.strip() and text.startswith("\\"):
            return [it + " " for it in self.commands if it.startswith(text)]
        if FILES.match(before):
            return files(text)
        if re.match(r"\s*\\format\s", before):
            return [it for it in FORMATS if it.startswith(text)]
        if re.match(r"\s*\\timing\s", before):
            return [it for it in ("on", "off") if it.startswith(text)]
        is_quoted = before.endswith('"') and before.count('"') % 2 == 1
        return self.names(text, before, whole or before + text, is_quoted) + ([] if is_quoted else self.keywords(text, before))

    def names(self, text: str, before: str, whole: str, is_quoted: bool) -> list[str]:
        """The names of objects and columns that begin with `text`, in capitals or not."""
        entry, point, begin = text.rpartition(".")
        if point:
            table = self.table_of(entry, whole)
            found = [it.name for one in ([table] if table else self.catalogue.tables.values()) for it in one.columns]
        elif BEFORE_TABLES.search(before):
            found = self.catalogue.tables
        else:
            found = self.all_names(whole)
        return sorted({f"{entry}{point}{it}" for it in written(found, begin, is_quoted)})

    def table_of(self, entry: str, whole: str) -> Object | None:
        """The table that is called so in a statement: by its alias, else by its name. None where no FROM has it yet."""
        name = entry.strip('"') if entry.startswith('"') else entry.lower()
        called = dict(entries(tokens(whole)))
        return self.catalogue.tables.get(called.get(name, name))

    def all_names(self, whole: str) -> list[str]:
        """The columns of a statement's tables, and of all tables where it names none yet; the aliases; all objects."""
        tables, called = self.catalogue.tables, entries(tokens(whole))
        chosen = [tables[table] for _, table in called if table in tables] or list(tables.values())
        objects = [it.name for it in self.catalogue.objects.values() if it.kind != "mapping"]
        return [*(it.name for table in chosen for it in table.columns), *(name for name, _ in called if name in tables or chosen), *objects]

    def keywords(self, text: str, before: str) -> list[str]:
        """The keywords that begin with `text`, in its case, where one is allowed."""
        if not text or BEFORE_TABLES.search(before):
            return []
        return [it for it in (WORDS if text.isupper() else map(str.lower, WORDS)) if it.startswith(text)]


def written(names: Iterable[str], begin: str, is_quoted: bool) -> Iterator[str]:
    """The names that begin so, as they are written after what was typed: in quotes where they have to be."""
    for name in names:
        if name.lower().startswith(begin.lower()) and printable(name) == name:
            if is_quoted:
                yield name.replace('"', '""') + '"'
            elif not re.search(r"\s", name) or not begin:
                yield quoted_name(name)


def files(text: str) -> list[str]:
    """Paths that begin with `text`; those that a terminal may not show are left out."""
    folder, _, begin = text.rpartition("/")
    try:
        names = sorted(os.listdir(folder + "/" if "/" in text else "."))
    except OSError:
        return []
    paths = [f"{folder}/{it}" if "/" in text else it for it in names if it.startswith(begin) and printable(it) == it]
    return [it + "/" if os.path.isdir(it) else it for it in paths]
