"""What fedq-setup makes of sources, for programs: the shell, the driver, and its own command."""
import csv, gc, os, threading
from dataclasses import dataclass
from typing import Dict, Iterable, List, Mapping, Optional, Set, Union

from ..notes import ColumnNote
from .advice import Refused, Report, source_name
from .script import MOST_SOURCES, Script, split_source

Path = Union[str, "os.PathLike[str]"]
Sources = Mapping[str, Mapping[str, Path]]
KINDS = "csv", "jsonl", "sqlite"


@dataclass(frozen=True)
class SetUp:
    """The script, a statement a line; what is said, a line each, that of faults and warnings first; what is known of columns; the names of
    the tables; whether something could not be bound; whether `--copy` makes more of the files; what is said of each file; and the
    databases without a table that is bound."""
    script: List[str]
    warnings: List[str]
    notes: List[ColumnNote]
    tables: List[str]
    failed: bool
    by_copy: bool
    writer: Script
    reports: List[Report]
    unbound: Set[str]


def sources_of(words: Mapping[str, Iterable[str]]) -> Dict[str, Dict[str, str]]:
    """The sources that arguments NAME=PATH of each kind name, by kind and name. Fails with ValueError where they name none."""
    found, names = {it: {} for it in KINDS}, set()  # type: Dict[str, Dict[str, str]], Set[str]
    for kind in KINDS:
        for word in words.get(kind, ()):
            source = split_source(word)
            if not source:
                raise ValueError(f"NAME=PATH expected, NAME of a-z, 0-9 and _ and no reserved word: {word}")
            if source[0] in names or len(names) == MOST_SOURCES:
                raise ValueError(f"two sources are called {source[0]}" if source[0] in names else f"more than {MOST_SOURCES} sources")
            names.add(source[0])
            found[kind][source[0]] = source[1]
    return found


class LargeFiles:
    """While files are read, by whichever threads: no passes over all objects, which cost seconds where there are a million rows, as nothing
    here is a cycle; and cells of any length. The process is afterwards as it was before the first."""

    def __init__(self) -> None:
        self.lock, self.inside, self.before = threading.Lock(), 0, (True, 0)

    def __enter__(self) -> None:
        with self.lock:
            if not self.inside:
                self.before = gc.isenabled(), csv.field_size_limit()
                gc.disable()
            self.inside += 1

    def __exit__(self, *_: object) -> None:
        with self.lock:
            self.inside -= 1
            if not self.inside:
                csv.field_size_limit(self.before[1])
                if self.before[0]:
                    gc.enable()


LARGE_FILES = LargeFiles()


def set_up(folders: Sources, write: bool = False, write_acl: bool = False, has_copies: bool = False,
           files: Optional[Mapping[str, str]] = None) -> SetUp:
    """Looks at sources, by their kind (csv, jsonl, sqlite) and name, and returns the script that binds them. With `write` their tables can
    be written, but where files have access control lists, and with `write_acl` there too; with `has_copies` nothing is said of tables of
    databases that cannot be bound. `files` has, of a source that is one file of its folder, the file's name."""
    script = Script(write, write_acl, has_copies)
    with LARGE_FILES:
        for kind in KINDS:
            for name, path in folders.get(kind, {}).items():
                if kind == "sqlite":
                    script.database(name, os.fspath(path))
                elif files and name in files:
                    script.file(kind, name, os.fspath(path), files[name])
                else:
                    others = folders.get("jsonl" if kind == "csv" else "csv", {}).values()
                    script.folder(kind, name, os.fspath(path), {os.path.realpath(it) for it in others})
    return SetUp(script.lines, script.said, script.notes, script.tables, script.failed, script.by_copy, script, script.reports,
                 script.unbound)


def set_up_copies(folders: Sources, folder: str, write: bool = False, write_acl: bool = False) -> "tuple":
    """Makes plain copies of sources in a folder, and returns what was copied, the sources to start with, and what `set_up` returns of them.
    Tables of databases that can be bound are bound where they are. Fails with Refused where the folder cannot be taken."""
    from .copying import copied  # (the shell needs none of it)
    copies = copied([(kind, name, os.fspath(path)) for kind, named in folders.items() for name, path in named.items()], folder)
    name = source_name(os.path.basename(os.path.realpath(folder)))
    names = os.listdir(folder)
    plain = {it: {} for it in KINDS}  # type: dict
    if any(it.endswith(".csv") for it in names):
        plain["csv"] = {name: folder}
    if any(it.endswith(".jsonl") for it in names):
        plain["jsonl"] = {f"{name[:54]}_lines" if plain["csv"] else name: folder}
    taken = {it for named in plain.values() for it in named}
    for base, path in folders.get("sqlite", {}).items():
        if has_tables(os.fspath(path)):
            plain["sqlite"][base if base not in taken else f"{base[:54]}_tables"] = path
    return copies, plain, set_up(plain, write, write_acl, True)


def has_tables(path: str) -> bool:
    """Whether a database has tables that can be bound."""
    from .databases import bind_sqlite
    from .script import guarded
    return bool(guarded(bind_sqlite, path, Report(path)))
