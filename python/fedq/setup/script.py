"""The init file: a table for each file or table of a database that can be bound."""
import os, re, sys
from typing import Callable, List, Optional, Set, Tuple

from ..names import quoted_name
from ..terminal import folder_word
from ..notes import ColumnNote, comment_of
from .access_lists import file_list, folder_list
from .advice import RESERVED, Refused, Report, listed, own_name, plain_name, say
from .csv_files import bind_csv
from .databases import SHAPES, bind_sqlite
from .files import LINES_FILES, MANIFEST, file_fault, is_other
from .json_lines import bind_jsonl

MOST_TABLES, MOST_SOURCES = 256, 64
BINDERS = {"csv": bind_csv, "jsonl": bind_jsonl}


def guarded(call: Callable, path: str, report: Report) -> object:
    """What a call returns, or None where the file is refused, which is reported."""
    try:
        return call(path, report)
    except Refused as refused:
        report.fault(refused.why, refused.line)
        report.by_copy = report.by_copy or refused.by_copy
    except UnicodeDecodeError as error:  # (of SQLite, whose message names what is no UTF-8)
        report.fault(f" is no database that fedq opens: {error.object.decode(errors='surrogateescape')}")
    except Exception as error:  # (of SQLite: whatever is no database)
        if type(error).__module__ != "sqlite3":
            raise
        report.fault(f" is no database that fedq opens: {error}")
    return None


def tables_of_folder(kind: str, folder: str, is_of_both: bool) -> List[tuple]:
    """Each file of a folder in order: its name, what binds it or None, and its report. In a folder of both kinds each has its own files."""
    try:
        names = sorted(os.listdir(folder))
    except OSError as error:
        report = Report(folder)
        hint = ": name the folder that it is in" if os.path.isfile(folder) else ""
        report.fault(f" is no folder that can be read: {error.strerror}{hint}")
        return [(None, None, report)]
    found = []
    for name in (it for it in names if it != MANIFEST):
        report, path = Report(os.path.join(folder, name)), os.path.join(folder, name)
        why, bound = file_fault(kind, folder, name), None
        if why and is_of_both and " by its name: --" in why:
            continue
        if why:
            report.fault(why)
        elif is_other(name):
            report.leave_out(" is no table by its name")
        else:
            bound = guarded(BINDERS[kind], path, report)
        found.append((name, bound, report))
    if not names:
        report = Report(folder)
        report.fault(" has no files")
        found.append((None, None, report))
    return found


class Script:
    """The init file as it grows, and what is said beside it. `writes` and `writes_lists` are whether mappings are for writing too, and
    whether they are where a file has an access control list; `has_copies` is whether what cannot be bound of databases was copied."""

    def __init__(self, writes: bool = False, writes_lists: bool = False, has_copies: bool = False) -> None:
        self.lines, self.said, self.taken, self.wrappers, self.failed = [], [], set(), set(), False
        self.notes, self.tables, self.by_copy = [], [], False  # type: List[ColumnNote], List[str], bool
        self.reports, self.unbound = [], set()  # type: List[Report], Set[str]
        self.writes, self.writes_lists, self.has_copies = writes or writes_lists, writes_lists, has_copies

    def take(self, report: Report) -> None:
        """Keeps what is said of a file."""
        self.said += report.lines()
        self.reports.append(report)
        self.by_copy = self.by_copy or report.by_copy
        self.failed = self.failed or bool(report.faults)

    def server(self, kind: str, name: str, writes: bool) -> None:
        """Adds a source's wrapper, where it is the first of its kind, its server and its mapping."""
        if kind not in self.wrappers:
            self.lines.append(f"CREATE FOREIGN DATA WRAPPER {kind} HANDLER {kind}")
            self.wrappers.add(kind)
        self.lines += [f"CREATE SERVER {name} FOREIGN DATA WRAPPER {kind} OPTIONS (source '{name}')",
                       f"CREATE USER MAPPING FOR PUBLIC SERVER {name}" + " OPTIONS (mode 'write')" * writes]

    def may_write(self, name: str, folder: str, files: "List[Tuple[str, Report]]") -> bool:
        """Whether the tables of these files are bound for writing. Each access control list is reported, in the file's own report; a
        mapping is one for all tables of a source."""
        if not self.writes:
            return False
        of_folder = Report(folder)
        found = [(of_folder, folder_list(folder))] if files else []
        found += [(report, file_list(path)) for path, report in files]
        held = [(report, why) for report, why in found if why]
        for report, why in held:
            said = f"{why}, which fedq cannot see: a write may widen who reads the file"
            if self.writes_lists:
                report.warn(f"{said}; --write-acl binds it for writing all the same")
            else:
                report.fault(f"{said}, so the tables of {name} are bound for reading alone; --write-acl binds them for writing")
        self.take(of_folder)
        return self.writes_lists or not held

    def table(self, server: str, stem: str, columns: List[str], options: str, report: Report) -> None:
        """Adds a table, under a name of its own."""
        wanted = plain_name(stem, 1)
        if len(self.taken) == MOST_TABLES:
            report.fault(f" would be table {MOST_TABLES + 1}, and there are at most {MOST_TABLES}")
            return
        name = own_name(wanted if wanted not in self.taken else f"{server}_{wanted}", self.taken)
        if name != wanted:
            report.warn(f": there is a table {wanted}: this one is called {name}")
        notes = [ColumnNote(name, column, kind) for column, kind in report.notes]
        made = f"CREATE FOREIGN TABLE {quoted_name(name)} ({', '.join(columns)}) SERVER {server} OPTIONS ({options})"
        self.lines.append(made + comment_of(notes))
        self.notes += notes
        self.tables.append(name)

    def file(self, kind: str, name: str, folder: str, file: str) -> None:
        """Adds one file of a folder, as a table that is called as the source is."""
        path = os.path.join(folder, file)
        report, why = Report(path), file_fault(kind, folder, file)
        report.source = f"--{kind} {name}={folder_word(folder)}"
        if why:
            report.fault(why)
        bound = None if why else guarded(BINDERS[kind], path, report)
        self.server(kind, name, bool(bound) and self.may_write(name, folder, [(path, report)]))
        if bound:
            self.table(name, name, bound[0], f"filename '{file}'{bound[1]}", report)
        self.take(report)

    def folder(self, kind: str, name: str, folder: str, others: Set[str]) -> None:
        """Adds the tables of a folder; `others` are the folders that another kind of files is read from too."""
        found = tables_of_folder(kind, folder, os.path.realpath(folder) in others)
        bound_files = [(os.path.join(folder, file), report) for file, bound, report in found if bound]
        writes = self.may_write(name, folder, bound_files)
        self.server(kind, name, writes)
        for file, bound, report in found:
            report.source = f"--{kind} {name}={folder_word(folder)}"
            if bound and writes and report.unbound:
                report.warn(f": {listed(report.unbound)} are in no column: an UPDATE of a line that has one is refused (55000)")
            if bound:
                self.table(name, file.rpartition(".")[0] or file, bound[0], f"filename '{file}'{bound[1]}", report)
            self.take(report)

    def database(self, name: str, path: str) -> None:
        """Adds the tables of a database."""
        report = Report(path)
        bound = guarded(bind_sqlite, path, report) or []
        if self.has_copies:
            report.faults = [it for it in report.faults if it != report.taken_out]
        files = [(path, report)] if bound and path != ":memory:" else []
        if bound:
            self.server("sqlite", name, self.may_write(name, os.path.dirname(path) or ".", files))
        else:
            self.unbound.add(name)
        for table in bound:
            columns = re.findall(r"[(,] ?(\w+)", SHAPES[table][0])
            declared = [f"{it} {kind}{' NOT NULL' * (it == 'id')}" for it, kind in zip(columns, SHAPES[table][1])]
            self.table(name, table, declared, f"table '{table}'", report)
        self.take(report)

    def write(self, path: Optional[str]) -> None:
        """Writes the script to a file, or to standard output where no path is given. A terminal is shown what it may show; a file and a
        pipe have each byte."""
        text = "".join(f"{it}\n" for it in self.lines)
        if path:
            with open(path, "w", encoding="utf-8", newline="\n") as file:
                file.write(text)
        elif sys.stdout.isatty():
            for line in self.lines:
                say(line, sys.stdout)
        else:
            sys.stdout.buffer.write(text.encode())
            sys.stdout.flush()


def split_source(word: str) -> Optional[Tuple[str, str]]:
    """NAME and PATH of a word; None where it has none, or the name is none for the program."""
    name, mark, path = word.partition("=")
    if not mark or not path or not re.fullmatch(r"[a-z_][a-z0-9_]{0,62}", name) or name in RESERVED | {"public"}:
        return None
    return name, path
