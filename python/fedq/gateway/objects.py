"""The objects of the program, as the statements that were done made them: all of them pass through the gateway."""
from typing import Dict, List, NamedTuple, Sequence, Tuple

from ..sql import Token, statements

TYPES = {"smallint": "integer", "integer": "integer", "int": "integer", "bigint": "integer", "text": "text", "boolean": "boolean",
         "bool": "boolean"}
KINDS = {"table": ("foreign", "table"), "wrapper": ("foreign", "data", "wrapper"), "server": ("server", ), "mapping": ("user", "mapping")}
BEHIND = {"wrapper": ("handler", ), "server": ("foreign", "data", "wrapper")}
# What `--list NAME` makes.
DEMO = """CREATE FOREIGN DATA WRAPPER list HANDLER list;
CREATE SERVER {0} FOREIGN DATA WRAPPER list OPTIONS (source '{0}');
CREATE USER MAPPING FOR PUBLIC SERVER {0} OPTIONS (mode 'write');
CREATE FOREIGN TABLE parts (id integer NOT NULL, name text, qty integer, live boolean) SERVER {0} OPTIONS (table 'parts');
CREATE FOREIGN TABLE orders (no integer, part integer, n integer) SERVER {0} OPTIONS (table 'orders')"""


class Column(NamedTuple):
    """A column of a table. `member` is the member that a table of JSON lines reads, where it has another name."""
    name: str
    type: str
    is_not_null: bool
    member: str = ""


class Object(NamedTuple):
    """A wrapper, a server, a mapping or a table. `of` is the kind, the wrapper or the server it is of; `number` is its own."""
    kind: str
    name: str
    number: int
    of: str
    columns: Tuple[Column, ...]
    options: Dict[str, str]


class Reader:
    """Reads tokens from left to right."""

    def __init__(self, found: Sequence[Token]) -> None:
        self.found, self.at = found, 0

    def next(self) -> str:
        self.at += 1
        return self.found[self.at - 1].value if self.at <= len(self.found) else ""

    def has(self, *values: str) -> bool:
        is_so = tuple(it.value for it in self.found[self.at:self.at + len(values)]) == values
        self.at += len(values) if is_so else 0
        return is_so

    def skip_to(self, *words: str) -> None:
        while self.at < len(self.found) and not self.has(*words):
            self.at += 1

    def options(self) -> Dict[str, str]:
        made = {}
        if self.has("options", "("):
            while self.at < len(self.found) and not self.has(")"):
                name = self.next()
                made[name] = self.next()
                self.has(",")
        return made

    def columns(self) -> List[Column]:
        made: List[Column] = []
        if self.has("("):
            while self.at < len(self.found) and not self.has(")"):
                name, type_name = self.next(), TYPES.get(self.next(), "text")
                member = self.options().get("member", "")
                made.append(Column(name, type_name, self.has("not", "null"), member))
                self.has("null")
                self.has(",")
        return made


class Objects:
    """What there is, by kind and name. `version` rises with each change."""

    def __init__(self) -> None:
        self.known: Dict[Tuple[str, str], Object] = {}
        self.version, self.count = 0, 0
        self.tables: Dict[str, Object] = {}

    def note_all(self, text: str) -> None:
        """Notes the statements of a text that were all done."""
        for it in statements(text):
            self.note(it)

    def note(self, found: Sequence[Token]) -> None:
        """Notes one statement that was done."""
        reader = Reader(found)
        verb = reader.next()
        kind = next((it for it, words in KINDS.items() if verb in ("create", "drop") and reader.has(*words)), None)
        if kind is None:
            return
        if not reader.has("if", "not", "exists"):
            reader.has("if", "exists")
        reader.has("for")
        name = reader.next()
        columns = reader.columns() if kind == "table" else []
        reader.skip_to(*BEHIND.get(kind, ("server", )))
        self.count += 1
        made = Object(kind, name, self.count, reader.next(), tuple(columns), reader.options())
        key = (kind, f"{name} on {made.of}" if kind == "mapping" else name)
        if verb == "drop":
            self.known.pop(key, None)
        else:
            self.known.setdefault(key, made)
        self.version += 1
        self.tables = {it.name: it for it in self.of_kind("table")}

    def source_of(self, table_name: str) -> Tuple[str, str]:
        """The kind and the name of the source of a table; nothing of what is not known."""
        table = self.tables.get(table_name)
        server = self.known.get(("server", table.of)) if table else None
        wrapper = self.known.get(("wrapper", server.of)) if server else None
        return (wrapper.of if wrapper else "", server.options.get("source", "") if server else "")

    def of_kind(self, kind: str) -> List[Object]:
        return [it for it in self.known.values() if it.kind == kind]
