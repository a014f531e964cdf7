"""More about a refusal than its code: the sentence of docs/ERRORS.md, the place in the statement and what to write instead, the nearest
names, the valid options, and what is where in a file."""
from __future__ import annotations

import os, re, shutil, subprocess
from collections.abc import Iterable, Iterator

from ..advice import advice, shown
from ..advice.judging import NAMES
from ..errors import MEANINGS
from ..names import quoted_name
from ..sql import RESERVED
from ..terminal import folder_word, path_word, shell_word
from .catalogue import TYPES, Parser, nearest
from .engine import APART
from .output import width_of
from .queries import entries, is_name
from .statements import tokens

if False:  # (for the types alone)
    from .catalogue import Object

MOST_FAULTS, MOST_NAMES = 10, 12  # that are shown
FILE_NAME = re.compile(r"[A-Za-z0-9_-][A-Za-z0-9_.-]{0,254}")
# Keywords that are no reserved words.
KEYWORDS = RESERVED | set("nulls first last row rows unknown cursor insensitive no scroll hold next close count sum min max".split())
OPTIONS = {"server": "source (required)", "mapping": "mode 'read' or 'write'", "list": "table (required)",
           "sqlite": "table (required): 'orders' or 'people'",
           "csv": "filename (required), header 'true' or 'false', null 'TEXT'", "jsonl": "filename (required); of a column: member 'NAME'"}
NO_TYPES = "a decimal or a date may be declared as text, and a type has no length"
SHAPES = (
    "of a database two tables can be read: orders, made by CREATE TABLE orders (id INTEGER PRIMARY KEY, part INTEGER, n INTEGER),",
    "and people, made by CREATE TABLE people (id INTEGER PRIMARY KEY, name TEXT, active INTEGER)",
    "of others export the rows: sqlite3 -csv -header FILE 'SELECT ..' > FOLDER/NAME.csv",
)


OF_FILES = "22P02", "HV00A", "HV00R", "54000", "HV004", "HV000"  # with which a table over a file is refused
# What is said of an engine at a port: the shell knows its tables alone, and those of `fedq serve` in part.
NO_TABLES = "this engine does not list its tables: \\d NAME shows one"
NO_OBJECTS = "an engine at a port does not list its wrappers and servers: they are in the script that it was started with"
NO_SOURCES = "an engine at a port does not list its sources: they are in the command that it was started with"
NO_FILE = "the file is where the engine runs: its lines, and the members that no column reads, can be seen there alone"


class Hints:
    """Hints on the statements of one session. `is_elsewhere` is whether the engine is at a port, `lists_tables` whether it has listed its
    tables."""

    def __init__(self, home, catalogue, user, is_elsewhere=False) -> None:
        self.home, self.catalogue, self.user, self.is_set_up = home, catalogue, user, False
        self.is_elsewhere, self.lists_tables = is_elsewhere, not is_elsewhere
        self.by_code = {"42P01": self.unknown_tables, "42703": self.unknown_columns, "42704": self.unknown_objects,
                        "HV00D": self.valid_options, "HV00J": self.valid_options, "HV00N": self.free_sources,
                        "42601": self.length_of_a_type}

    def sentence(self, code: str) -> str:
        """What docs/ERRORS.md says of a code in short, or nothing."""
        return MEANINGS.get(code, "")

    def folder_of(self, table_name: str) -> tuple[str, str]:
        """The kind and the path of the source of a table; `elsewhere` for the kind where the engine is at a port."""
        if self.is_elsewhere:
            return "elsewhere", ""
        kind, _, path = self.catalogue.source_of(self.catalogue.tables[table_name].of)
        return kind, path

    def lines(self, code: str, text: str) -> list[str]:
        """The hints on a statement that was refused by this code."""
        found = advice(code, text, self.catalogue.tables, self.folder_of)
        lines = shown(found, text, width_of) if found else []
        if code in self.by_code:
            return [*lines, *self.by_code[code](text)]
        return lines or self.lines_of_object(code, text)

    def lines_of_object(self, code: str, text: str) -> list[str]:
        """The hints on a statement on objects, or on a write, that was refused by this code."""
        is_write = tokens(text)[:1] and tokens(text)[0].value in ("insert", "update", "delete")
        if code == "42501" and is_write and self.is_elsewhere:
            return ["to write: the engine is started with a script that fedq-setup --write made"]
        if code == "42501" and is_write and self.setup_words():
            return [f"to write: fedq-setup {self.setup_words()} --write --out write.sql, then --init write.sql"]
        if code == "55000" and is_write and self.is_elsewhere:
            return [NO_FILE]
        made = Parser(text).object()
        if made and made.kind == "table" and not made.is_drop and made.options and code in OF_FILES:
            return list(self.remote_table(made))
        return ["mode is 'read' or 'write'"] if made and made.kind == "mapping" and code == "22P02" else []

    def unknown_tables(self, text: str) -> Iterator[str]:
        """Which tables of a statement are not there."""
        found, tables = tokens(text), self.catalogue.tables
        called = dict(entries(found))
        unknown = [it for it in called.values() if it not in tables]
        for name in unknown:
            yield from said_of("foreign table", name, tables)
        if unknown and not self.lists_tables:
            yield NO_TABLES
        if unknown and not tables and not self.is_set_up and self.setup_words():
            yield f"no table was made yet: fedq-setup {self.setup_words()} > setup.sql writes what makes some, and --init setup.sql runs it"
        for at, it in enumerate(found[:-1]):
            if not unknown and is_name(it) and found[at + 1] == ("mark", ".") and it.value not in called:
                yield from said_of("entry of FROM", it.value, called)

    def setup_words(self) -> str:
        """The arguments with which fedq-setup looks at the sources; nothing where there are none, or no fedq-setup."""
        words = " ".join(f"--{kind} {name}={folder_word(path)}" for kind, name, path in self.catalogue.sources if kind != "list")
        return words if setup_program(self.home) else ""

    def unknown_columns(self, text: str) -> Iterator[str]:
        """Which columns of a statement are not there."""
        found, tables = tokens(text), self.catalogue.tables
        pairs = entries(found)
        columns = {column.name for _, table in pairs if table in tables for column in tables[table].columns}
        passed = {*columns, *(name for pair in pairs for name in pair)}
        labels = {found[at + 1].value for at, it in enumerate(found[:-1]) if it == ("word", "as")}
        for at, it in enumerate(found):
            is_function = found[at + 1:at + 2] == [("mark", "(")] and it.kind == "word"
            is_said = it.value in labels or it.kind == "word" and (it.value in KEYWORDS or it.value in NAMES)  # (advice says it)
            if not is_name(it) or it.value in passed or is_said or is_function:
                continue
            passed.add(it.value)
            if it.kind == "quoted" and not nearest(it.value, columns):
                yield f"double quotes make a name; a text is in single ones: '{it.value}'"
            yield from said_of("column", it.value, columns)

    def unknown_objects(self, text: str) -> Iterator[str]:
        """Which wrappers, servers, mappings and types of a statement are not there."""
        made = Parser(text).object()
        unknown = sorted({it.type for it in made.columns if it.type not in TYPES}) if made else []
        if made is None:
            yield from self.lacking_mappings(text)
        elif made.kind == "server" and not made.is_drop:
            yield from said_of("wrapper", made.of, [it.name for it in self.catalogue.of_kind("wrapper")])
        elif made.kind in ("table", "mapping") and not made.is_drop and not self.catalogue.get("server", made.of):
            is_sure = not self.is_elsewhere or not unknown  # (of an engine at a port the type may be all that is not there)
            yield from said_of("server", made.of, [it.name for it in self.catalogue.of_kind("server")]) if is_sure else ()
        elif made.is_drop:
            yield from said_of(made.kind, made.name, [it.name for it in self.catalogue.of_kind(made.kind)])
        if made and self.is_elsewhere and not unknown:
            yield NO_OBJECTS if not (made.is_drop and made.kind == "table") else NO_TABLES
        if unknown:
            yield f"no type {', '.join(unknown)}; the types are {', '.join(TYPES)}; {NO_TYPES}"

    def lacking_mappings(self, text: str) -> Iterator[str]:
        """Which mappings the user lacks."""
        tables = self.catalogue.tables
        if self.is_elsewhere:
            yield f"{self.user} has no mapping on a server of these tables: the owner writes CREATE USER MAPPING FOR {self.user} SERVER .."
            return
        for server in sorted({tables[name].of for _, name in entries(tokens(text)) if name in tables}):
            if not any(self.catalogue.get("mapping", f"{user} on {server}") for user in (self.user, "public")):
                way_out = f"CREATE USER MAPPING FOR {self.user} SERVER {quoted_name(server)}"
                yield f"{self.user} has no mapping on {server}: the owner writes {way_out}"

    def length_of_a_type(self, text: str) -> Iterator[str]:
        """The types, where a table's definition could not be read."""
        if re.match(r"\s*create\s+foreign\s+table\b", text, re.I):
            yield f"the types are {', '.join(TYPES)}; {NO_TYPES}"

    def valid_options(self, text: str) -> Iterator[str]:
        """The options that an object of this kind may have."""
        made = Parser(text).object()
        if made is None:
            return
        kind = made.kind if made.kind != "table" else self.catalogue.source_of(made.of)[0]
        if made.kind == "table" and not kind:
            yield f"the options of a table: {'; '.join(f'of {it} {OPTIONS[it]}' for it in ('csv', 'jsonl', 'list', 'sqlite'))}"
        if kind in OPTIONS:
            yield f"the options of {'a table of ' if made.kind == 'table' else 'a '}{kind}: {OPTIONS[kind]}"

    def free_sources(self, text: str) -> Iterator[str]:
        """Which sources a server may have."""
        if self.is_elsewhere:
            yield NO_SOURCES
            return
        made, taken = Parser(text).object(), {it.options.get("source"): it.name for it in self.catalogue.of_kind("server")}
        wrapper = made and self.catalogue.get("wrapper", made.of)
        for kind, name, _ in self.catalogue.sources:
            fault = f"server {taken[name]} has it" if name in taken else "" if not wrapper or kind == wrapper.of else f"not of {wrapper.of}"
            yield f"source {name} is of {kind}{': ' + fault if fault else ''}"
        if not self.catalogue.sources:
            yield "there is no source: --list, --csv, --jsonl and --sqlite name some"

    def remote_check(self, made: Object) -> str:
        """The command that says, where the engine runs, what is wrong with a file or table."""
        kind, name = self.catalogue.source_of(made.of)[0], made.options.get("filename", made.options.get("table", ""))
        columns = ", ".join(f"{quoted_name(it.name)} {it.type}" for it in made.columns)
        try:
            words = f"{kind or 'KIND'} FOLDER {path_word(name)} --columns {shell_word(columns)}"
        except ValueError:  # (a name that ends in a line end is no word of a command)
            words = ".."
        return f"where the engine runs, fedq-setup --check {words} says why"

    def remote_table(self, made: Object) -> Iterator[str]:
        """What is wrong with the file or table that a foreign table was to read."""
        kind, _, path = self.catalogue.source_of(made.of)
        name = made.options.get("table" if kind == "sqlite" else "filename", "")
        if kind == "sqlite" and not self.is_elsewhere:
            yield from self.faults_of(kind, path, name, made) or SHAPES
        if kind not in ("csv", "jsonl") and not (self.is_elsewhere and "filename" in made.options):
            yield from [self.remote_check(made)] if self.is_elsewhere else []
            return
        if not FILE_NAME.fullmatch(name):
            yield f"a filename is 1 to 255 of A-Z a-z 0-9 _ . - and begins with no dot: rename {name!r}, or make a link to it"
        elif made.options.get("header", "true") not in ("true", "false"):
            yield "header is 'true' or 'false', in lower case"
        elif self.is_elsewhere:
            yield self.remote_check(made)
        elif not os.path.isdir(path):
            yield f"there is no folder {path}"
        elif not os.path.exists(os.path.join(path, name)):
            yield from said_of("file", name, os.listdir(path), f" in {path}")
        else:
            yield from self.faults_of(kind, path, name, made)

    def faults_of(self, kind: str, path: str, name: str, made: Object) -> list[str]:
        """What `fedq-setup --check` says of a file or table, a line a fault; nothing where the script is not there."""
        setup = setup_program(self.home)
        if not setup or path == ":memory:":
            return []
        command = [setup, "--check", kind, path, name, "--columns", ", ".join(f"{quoted_name(it.name)} {it.type}" for it in made.columns)]
        if any(it.options for it in made.columns):
            command += ["--members", ", ".join(it.options.get("member", "") for it in made.columns)]
        for option in ("header", "null"):
            command += [f"--{option}", made.options[option]] if option in made.options else []
        try:
            done = subprocess.run(command, stdin=subprocess.DEVNULL, capture_output=True, timeout=60, **APART)
        except (OSError, subprocess.TimeoutExpired):
            return []
        return done.stdout.decode(errors="replace").splitlines()[:MOST_FAULTS] if done.returncode == 1 else []


def setup_program(home: str) -> str:
    """The path of fedq-setup, or nothing."""
    beside = os.path.join(home, "fedq-setup")
    return beside if os.access(beside, os.X_OK) else shutil.which("fedq-setup") or ""


def said_of(what: str, name: str, names: Iterable[str], where: str = "") -> Iterator[str]:
    """That this name is not among `names`, and which of them are near; all of a few where none is."""
    near = nearest(name, names)
    shown = ", ".join(map(written_if_name, near or sorted(names)))
    few = f"; there are {shown}" if 0 < len(names) <= MOST_NAMES else ""
    yield f"no {what} {name}{where}{f'; nearest: {shown}' if near else few}"


def written_if_name(name: str) -> str:
    """A name as SQL has it, where it is no name of a file."""
    return name if re.fullmatch(r"[\w.-]+", name) else quoted_name(name)
