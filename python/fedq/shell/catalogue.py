"""The objects that the shell knows: it reads the statements on objects that were done."""
from __future__ import annotations

from collections.abc import Iterable

from ..names import quoted_name
from ..sql import quoted_text
from .statements import tokens

TYPES = {"smallint": "integer", "integer": "integer", "int": "integer", "bigint": "integer", "text": "text",
         "boolean": "boolean", "bool": "boolean"}
# The words that name a kind of objects.
KINDS = {"table": ("foreign", "table"), "wrapper": ("foreign", "data", "wrapper"), "server": ("server", ), "mapping": ("user", "mapping")}
# What `--list NAME` makes, as docs/SOURCES.md shows it.
DEMO = """CREATE FOREIGN DATA WRAPPER list HANDLER list;
CREATE SERVER {0} FOREIGN DATA WRAPPER list OPTIONS (source '{0}');
CREATE USER MAPPING FOR PUBLIC SERVER {0} OPTIONS (mode 'write');
CREATE FOREIGN TABLE parts (id integer NOT NULL, name text, qty integer, live boolean) SERVER {0} OPTIONS (table 'parts');
CREATE FOREIGN TABLE orders (no integer, part integer, n integer) SERVER {0} OPTIONS (table 'orders')"""


class Column:
    """A column of a foreign table, as it was declared."""
    is_not_null = False

    def __init__(self, name, type_name, options) -> None:
        self.name, self.type, self.options = name, type_name, options

    def __str__(self):
        return f"{quoted_name(self.name)} {self.type}{options_text(self.options)}{' NOT NULL' if self.is_not_null else ''}"


class Object:
    """What a statement makes or drops. `kind` is table, server, wrapper or mapping; `of` what it is based on (of a wrapper: its HANDLER)."""
    of = ""

    def __init__(self, kind, name, is_drop) -> None:
        self.kind, self.name, self.is_drop, self.columns, self.options = kind, name, is_drop, [], {}

    def __str__(self):
        if self.kind == "table":
            return f"{quoted_name(self.name)} ({', '.join(map(str, self.columns))})"
        return self.name


def options_text(options: dict[str, str]) -> str:
    """Options as a statement has them."""
    quoted = (f"{name} {quoted_text(text)}" for name, text in options.items())
    return f" OPTIONS ({', '.join(quoted)})" if options else ""


class Parser:
    """Reads one statement on objects; what is no such statement it leaves alone, as None."""

    def __init__(self, text) -> None:
        self.tokens, self.at = tokens(text), 0

    def next(self) -> str:
        """The next token's value; nothing at the end."""
        self.at += 1
        return self.tokens[self.at - 1].value if self.at <= len(self.tokens) else ""

    def has(self, *values: str) -> bool:
        """Whether these words come next; they are then read."""
        found = self.tokens[self.at:self.at + len(values)]
        is_so = len(found) == len(values) and all(it.value == value and it.kind in ("word", "mark") for it, value in zip(found, values))
        self.at += len(values) * is_so
        return is_so

    def skip_to(self, *words: str) -> None:
        """Reads up to these words, and past them."""
        while self.at < len(self.tokens) and not self.has(*words):
            self.at += 1

    def object(self) -> Object | None:
        """The Object of this statement, or None."""
        verb = self.next()
        if verb not in ("create", "drop"):
            return None
        for kind, words in KINDS.items():
            if self.has(*words):
                self.has("if", "not", "exists") or self.has("if", "exists")
                self.has("for")
                found = Object(kind, self.next(), is_drop=verb == "drop")
                getattr(self, kind)(found)
                return found
        return None

    def wrapper(self, found: Object) -> None:
        """Reads the rest of a statement on a wrapper."""
        self.skip_to("handler")
        found.of = self.next()

    def server(self, found: Object) -> None:
        """Reads the rest of a statement on a server."""
        self.skip_to("foreign", "data", "wrapper")
        found.of = self.next()
        found.options = self.options()

    def mapping(self, found: Object) -> None:
        """Reads the rest of a statement on a user mapping."""
        self.skip_to("server")
        found.of = self.next()
        found.name, found.options = f"{found.name} on {found.of}", self.options()

    def table(self, found: Object) -> None:
        """Reads the rest of a statement on a foreign table."""
        if self.has("("):
            while self.at < len(self.tokens) and not self.has(")"):
                found.columns.append(self.column())
                self.has(",")
        self.skip_to("server")
        found.of = self.next()
        found.options = self.options()

    def column(self) -> Column:
        """Reads a column as it is declared."""
        name, type_name = self.next(), self.next()
        found = Column(name, type_name, self.options())
        found.is_not_null = self.has("not", "null")
        while self.at < len(self.tokens) and self.tokens[self.at].value not in (",", ")"):
            self.at += 1
        return found

    def options(self) -> dict[str, str]:
        """Reads OPTIONS (..), by name; nothing where they do not come next."""
        found = {}
        if self.has("options", "("):
            while self.at < len(self.tokens) and not self.has(")"):
                name = self.next()
                found[name] = self.next()
                self.has(",")
        return found


class Catalogue:
    """What is there, by kind and name, in the order in which it was made."""

    def __init__(self, sources=()):
        self.sources, self.objects, self.cursors = list(sources), {}, {}
        for kind, name, _ in self.sources:
            for text in DEMO.format(name).split(";") if kind == "list" else ():
                self.note(text)

    def note(self, text: str) -> None:
        """Takes in what a statement made or dropped that was done."""
        found = Parser(text).object()
        if found and found.is_drop:
            self.objects.pop((found.kind, found.name), None)
        elif found:
            self.objects.setdefault((found.kind, found.name), found)

    def add_table(self, name: str, columns: list[tuple[str, str, bool]], server: str = "") -> None:
        """Takes in a table that was made elsewhere: of each column the name, the type, and whether it is NOT NULL."""
        table = self.objects[("table", name)] = Object("table", name, False)
        table.of = server
        for column, type_name, is_not_null in columns:
            table.columns.append(Column(column, type_name, {}))
            table.columns[-1].is_not_null = is_not_null

    def take_tables(self, rows: list[list[str]]) -> None:
        """Takes in all tables that are there, one row a column, by tables: table, column, type, NO where it is NOT NULL, and server. What
        the shell has seen made keeps its options."""
        found = {}
        for table, column, type_name, is_nullable, server in rows:
            found.setdefault((table, server), []).append((column, TYPES.get(type_name, type_name), is_nullable == "NO"))
        names = {table for table, _ in found}
        for name in [it for it in self.tables if it not in names]:
            del self.objects[("table", name)]
        for (name, server), columns in found.items():
            if ("table", name) not in self.objects:
                self.add_table(name, columns, server)

    def of_kind(self, kind: str) -> list[Object]:
        """All objects of a kind."""
        return [it for it in self.objects.values() if it.kind == kind]

    def get(self, kind: str, name: str) -> Object | None:
        """The object of this kind and name; None where there is none."""
        return self.objects.get((kind, name))

    @property
    def tables(self) -> dict[str, Object]:
        """The foreign tables by name."""
        return {it.name: it for it in self.of_kind("table")}

    def source_of(self, server_name: str) -> tuple[str, str, str]:
        """Kind, name and path of a server's source; nothing of what is not known."""
        server = self.get("server", server_name)
        wrapper = server and self.get("wrapper", server.of)
        name = server.options.get("source", "") if server else ""
        for kind, source, path in self.sources:
            if source == name:
                return kind, name, path
        return wrapper.of if wrapper else "", name, ""

    def is_in_memory(self, table_name: str) -> bool:
        """Whether the rows of a table end with the program."""
        table = self.get("table", table_name)
        kind, _, path = self.source_of(table.of) if table else ("", "", "")
        return kind == "list" or kind == "sqlite" and path == ":memory:"


def nearest(name: str, names: Iterable[str]) -> list[str]:
    """Up to three of `names` that are spelt almost as `name`."""
    import difflib
    folded = {it.lower(): it for it in names}
    return [folded[it] for it in difflib.get_close_matches(name.lower(), folded, 3, 0.6)]
