"""`--copy DIR`: plain files of sources, each made anew where its source is another than it was."""
import json, os, time
from typing import Callable, Dict, List, Optional, Set, Tuple

from ..terminal import folder_word, path_word
from .advice import Refused, Report, plain_name, plain_stem
from .copy_files import COPIERS, Made
from .copy_tables import copy_table, tables_of
from .files import LINES_FILES, MANIFEST, content, is_other

FORM = 1  # of the manifest, and of what copies are made
UNFINISHED = ".fedq-copy.tmp"
Source = Tuple[str, str, str]  # kind, name, path
Copier = Callable[[str, Report], Made]


class Copies:
    """A folder of copies, its manifest, and what is said. `both` are the folders that are sources of CSV and of JSON; `tables`
    has the copy for each name of a table."""

    def __init__(self, folder: str) -> None:
        self.folder, self.reports, self.anew, self.kept = folder, [], 0, 0  # type: str, List[Report], int, int
        self.names, self.entries, self.both = set(), {}, set()  # type: Set[str], Dict[str, dict], Set[str]
        self.tables = {}  # type: Dict[str, str]

    def read(self) -> None:
        """Reads the manifest. Refused where it is none of this program."""
        path = os.path.join(self.folder, MANIFEST)
        if not os.path.lexists(path):
            return
        try:
            with open(path, encoding="utf-8") as file:
                self.entries = {name: it for name, it in json.load(file)["copies"].items() if isinstance(it, dict)}
        except (ValueError, KeyError, AttributeError, TypeError):
            raise Refused(": is no manifest of fedq-setup: move it, or name another folder") from None

    def write(self) -> None:
        """Writes the manifest."""
        text = json.dumps({"form": FORM, "copies": self.entries}, indent=1, ensure_ascii=True)
        self.put(MANIFEST, text.encode())

    def put(self, name: str, raw: bytes, before: Optional[Callable[[os.stat_result], None]] = None) -> None:
        """Writes a file of the folder whole or not at all: under another name, synced, then renamed. `before` is called in between."""
        unfinished, target = os.path.join(self.folder, f"{name}{UNFINISHED}"), os.path.join(self.folder, name)
        try:
            with open(unfinished, "wb") as file:
                file.write(raw)
                file.flush()
                os.fsync(file.fileno())
                found = os.fstat(file.fileno())
            if before:
                before(found)
            os.replace(unfinished, target)
        finally:
            if os.path.lexists(unfinished):
                os.unlink(unfinished)

    def own(self, source: str, stem: str, end: str, report: Report) -> str:
        """The name of a copy, which no other copy of this run has, also as the name of a table."""
        name, table = stem + end, plain_name(stem, 1)
        if table in self.tables:
            other, name, number = self.tables[table], f"{source}_{stem}{end}", 1
            while plain_name(name.rpartition(".")[0], 1) in self.tables:
                number += 1
                name = f"{source}_{stem}_{number}{end}"
            report.warn(f": its copy is called {name}, as there is another {other}")
        self.tables[plain_name(name.rpartition(".")[0], 1)] = name
        self.names.add(name)
        return name

    def place_fault(self, name: str) -> Optional[str]:
        """Why a copy cannot be written under a name; None where it can."""
        path, entry = os.path.join(self.folder, name), self.entries.get(name)
        if not os.path.lexists(path):
            return None
        if not entry:
            return f": {path_word(path)} is there, and fedq-setup did not make it: move it"
        if os.path.islink(path) or not os.path.isfile(path):
            return f": {path_word(path)} is no plain file any more: move it"
        if identity(path) in entry["made"]:
            return None
        return f": {path_word(path)} was changed since it was made: move it, and it is made anew"

    def is_fresh(self, name: str, source: str, of: list) -> bool:
        """Whether a copy is there as it was made from the source as it is."""
        entry, path = self.entries.get(name), os.path.join(self.folder, name)
        return bool(entry) and entry["form"] == FORM and entry["source"] == source and entry["of"] == of and os.path.isfile(path) \
            and identity(path) == entry["made"][0]

    def copy(self, name: str, source: str, table: str, report: Report, copier: Copier) -> None:
        """Makes a copy anew where it is not fresh."""
        of, key = [*identity(source), *identity(f"{source}-wal")], os.path.abspath(source)
        try:
            why = self.place_fault(name)
            if why:
                raise Refused(why)
            if self.is_fresh(name, key, of):
                self.kept += 1
                report.warnings += self.entries[name]["said"]
                return
            made = copier(source, report)
            if [*identity(source), *identity(f"{source}-wal")] != of:
                raise Refused(" was changed while it was read: start again")
        except Refused as refused:
            if refused.why:
                report.fault(refused.why, refused.line)
            if os.path.exists(os.path.join(self.folder, name)) and name in self.entries and not report.faults[-1].endswith("made anew"):
                report.warn(f": {path_word(os.path.join(self.folder, name))} is still the copy of how it was before")
            return
        before, target = self.entries.get(name), os.path.join(self.folder, name)
        self.say_renamed(report, before, made)
        columns = [{"name": it.name, "of": it.origin, "did": it.did} for it in made.columns]
        entry = {"form": FORM, "source": key, "table": table, "of": of, "size": of[0], "modified": shown_time(of[1]),
                 "did": made.did, "columns": columns, "said": [*report.warnings]}

        def note(found: os.stat_result) -> None:
            old = [identity(target)] if os.path.lexists(target) else []
            self.entries[name] = {**entry, "made": [[found.st_size, found.st_mtime_ns], *old]}
            self.write()
        self.put(name, made.raw, note)
        self.anew += 1

    def say_renamed(self, report: Report, before: Optional[dict], made: Made) -> None:
        """Warns of columns that were called otherwise in the copy before, as where decimals have more digits now."""
        columns = before["columns"] if before else []
        was = {(it["of"], bool(it["did"]) and it["did"][0].startswith("its month")): it["name"] for it in columns}
        for it in made.columns:
            old = was.get((it.origin, bool(it.did) and it.did[0].startswith("its month")))
            if old and old != it.name:
                report.warn(f" column {old} of its copy is {it.name} now")

    def source(self, kind: str, name: str, path: str) -> None:
        """Makes the copies of a source."""
        if kind == "sqlite":
            self.database(name, path)
            return
        try:
            files = sorted(os.listdir(path))
        except OSError as error:
            self.fault(path, f" is no folder that can be read: {error.strerror}")
            return
        for file in files:
            end = file[:-3].rpartition(".")[2].lower() if file.lower().endswith(".gz") else file.rpartition(".")[2].lower()
            is_lines, whole = end in LINES_FILES, os.path.join(path, file)
            is_own = os.path.realpath(whole) == os.path.realpath(self.folder)
            if is_own or file == MANIFEST or is_other(file) or is_lines != (kind == "jsonl") and os.path.realpath(path) in self.both:
                continue
            report = Report(whole)
            self.reports.append(report)
            if os.path.isdir(whole) or is_lines != (kind == "jsonl"):
                report.fault(" is a folder: name it by itself" if os.path.isdir(whole) else
                             f" is not for --{kind} by its name: --{'jsonl' if kind == 'csv' else 'csv'} NAME={folder_word(path)}")
                continue
            target = self.own(name, plain_stem(file, "table"), ".jsonl" if is_lines else ".csv", report)
            self.copy(target, whole, "", report, COPIERS[kind])

    def database(self, name: str, path: str) -> None:
        """Makes the copies of the tables of a database that cannot be bound."""
        try:
            tables = tables_of(path) if path != ":memory:" else []
        except Refused as refused:
            self.fault(path, refused.why)
            return
        except Exception as error:  # (of SQLite: whatever is no database)
            if type(error).__module__ != "sqlite3":
                raise
            self.fault(path, f" is no database: {error}")
            return
        for table in tables:
            report = Report(path)
            self.reports.append(report)
            target = self.own(name, plain_stem(table.replace(".", "_"), "table"), ".csv", report)
            self.copy(target, path, table, report, lambda source, report, table=table: copy_table(source, table, report))

    def fault(self, path: str, why: str) -> None:
        """Says why a source cannot be copied."""
        report = Report(path)
        report.fault(why)
        self.reports.append(report)

    def orphans(self) -> None:
        """Says which copies have no source any more."""
        for name in sorted(set(self.entries) - self.names):
            if os.path.exists(os.path.join(self.folder, name)):
                report = Report(os.path.join(self.folder, name))
                report.warn(f" is a copy of {self.entries[name]['source']}, which is none of these sources: it stays as it is")
                self.reports.append(report)


def identity(path: str) -> list:
    """The length and the time of a file; zeros where it is not there."""
    try:
        found = os.stat(path)
    except OSError:
        return [0, 0]
    return [found.st_size, found.st_mtime_ns]


def shown_time(nanoseconds: int) -> str:
    """A time as UTC."""
    return time.strftime("%Y-%m-%dT%H:%M:%SZ", time.gmtime(nanoseconds // 1_000_000_000))


def locked(folder: str) -> int:
    """The folder's lock, as a descriptor to close. Refused where another program has it; -1 where the system has none."""
    descriptor = os.open(folder, os.O_RDONLY)
    try:
        import fcntl
        fcntl.flock(descriptor, fcntl.LOCK_EX | fcntl.LOCK_NB)
    except BlockingIOError:
        os.close(descriptor)
        raise Refused(": another program writes in it: start again once it has ended") from None
    except (ImportError, OSError):
        pass
    return descriptor


def copied(sources: List[Source], folder: str) -> Copies:
    """Makes copies of all sources in a folder. Fails with Refused where the folder cannot be taken."""
    if any(kind != "sqlite" and os.path.realpath(path) == os.path.realpath(folder) for kind, _, path in sources):
        raise Refused(" is a folder of sources too: name another for the copies")
    os.makedirs(folder, exist_ok=True)
    copies = Copies(folder)
    places = [{os.path.realpath(path) for kind, _, path in sources if kind == it} for it in ("csv", "jsonl")]
    copies.both = places[0] & places[1]
    lock = locked(folder)
    try:
        for it in os.listdir(folder):
            if it.endswith(UNFINISHED):
                os.unlink(os.path.join(folder, it))
        copies.read()
        for source in sources:
            copies.source(*source)
        copies.orphans()
    finally:
        os.close(lock)
    return copies
