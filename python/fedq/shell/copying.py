"""\\copy (SELECT ..) TO FILE: what its parts mean, and a file that is there once it is whole."""
from __future__ import annotations

import copy, os, re, stat, sys
from collections.abc import Iterator
from contextlib import contextmanager
from typing import BinaryIO, NamedTuple

from .output import writer
from .statements import Statement, fault_of, tokens
from .words import FORMATS

if False:  # (for the types alone)
    from .session import Session

FORM = re.compile(r"""\s*(?:\((?P<query>.*)\)|(?P<table>(?:"(?:[^"]|"")+"|[^\s"(])+)\s*(?:\((?P<columns>[^()]*)\))?)
    \s*\bto\s+(?P<file>'(?:[^']|'')*'|\S+)(?P<rest>.*)""", re.I | re.S | re.X)
FROM = re.compile(r"\s*[^\s(]+\s*(\([^()]*\))?\s*from\b", re.I)
ENDS = {"csv": "csv", "tsv": "tsv", "txt": "tsv", "md": "markdown", "markdown": "markdown", "json": "json", "jsonl": "jsonl",
        "ndjson": "jsonl"}
PASSED = {"with", "format", "header", "true", "on"}
USAGE = "\\copy (SELECT ..) TO FILE, or \\copy TABLE TO FILE; then perhaps a format: " + ", ".join(FORMATS)


class Copy(NamedTuple):
    """A query, the file that its rows go to (empty for standard output), and their format."""
    query: str
    file: str
    format: str


def read(argument: str) -> Copy:
    """What follows \\copy. Fails with ValueError, whose text says what may follow."""
    if FROM.match(argument):
        raise ValueError("\\copy writes rows to files alone: a file is read by fedq-setup --csv, and rows are written by INSERT")
    found = FORM.fullmatch(argument)
    if not found:
        raise ValueError(USAGE)
    file = found["file"][1:-1].replace("''", "'") if found["file"].startswith("'") else found["file"]
    is_here = found["file"].lower() == "stdout"
    form = ENDS.get(file.rpartition(".")[2].lower() if "." in file else "", "csv")
    for word in re.findall(r"[^\s(),]+", found["rest"].lower()):
        if word not in FORMATS and word != "text" and word not in PASSED:
            raise ValueError(f"{word} is no word of \\copy, which writes the names of the columns first: {USAGE}")
        form = form if word in PASSED else "tsv" if word == "text" else word
    query = (found["query"] or f"SELECT {found['columns'] or '*'} FROM {found['table']}").strip().rstrip(";")
    if tokens(query)[:1] != [("word", "select")]:
        raise ValueError(USAGE)
    return Copy(query, "" if is_here else os.path.expanduser(file), form)


@contextmanager
def whole_file(path: str) -> Iterator[BinaryIO]:
    """A file to write to, which takes the place of the one at this path where all was well; else that stays as it was. What is no plain
    file, as a pipe, is written to at once."""
    real = os.path.realpath(path)
    mode = os.stat(real).st_mode if os.path.exists(real) else None
    if mode is not None and not stat.S_ISREG(mode):
        with open(real, "wb") as file:
            yield file
        return
    new = f"{real}.{os.getpid()}.tmp"
    try:
        with open(new, "xb") as file:
            yield file
        if mode is not None:
            os.chmod(new, stat.S_IMODE(mode))
        os.replace(new, real)
    except OSError as fault:
        raise OSError(fault.errno, fault.strerror, path) from None
    finally:
        if os.path.lexists(new):
            os.unlink(new)


@contextmanager
def target(path: str) -> Iterator[BinaryIO]:
    """What rows are written to: a file, or standard output where no path is given."""
    if path:
        with whole_file(path) as file:
            yield file
    else:
        yield sys.stdout.buffer
        sys.stdout.flush()


class Dropped(Exception):
    """The file is not to be written."""


class Sink:
    """Writes texts to a file. After a failure it takes no more, and keeps the fault."""

    def __init__(self, file: BinaryIO) -> None:
        self.file, self.fault = file, None

    def write(self, text: str) -> None:
        """Writes a text."""
        try:
            if not self.fault:
                self.file.write(text.encode(errors="replace"))
        except OSError as fault:
            self.fault = fault


def copy_rows(session: Session, wanted: Copy) -> int | None:
    """Writes the rows of a query to its file; how many there were, or None where the query was refused, which is said. Fails with OSError
    where the file cannot be written: it is then as it was."""
    settings, reply = copy.copy(session.settings), None
    settings.format, settings.is_expanded = wanted.format, False
    statement = Statement(wanted.query, 0, fault_of(wanted.query, False))
    if statement.fault or not session.keeper.catch_up():
        session.tell_fault(statement, "")
        return None
    try:
        with target(wanted.file) as file:
            sink = Sink(file)
            shown = writer(settings, session.types_of_query(wanted.query, tokens(wanted.query), settings.has_types()), sink.write)
            reply = session.reply_to(wanted.query, shown)
            if not reply or reply.code:
                raise Dropped
            shown.end()
            if sink.fault:
                raise OSError(sink.fault.errno, sink.fault.strerror, wanted.file)
            return shown.count
    except Dropped:
        if reply:
            session.tell_refusal(reply, statement, "")
        return None
