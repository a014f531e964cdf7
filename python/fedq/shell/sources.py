"""Sources without an init file: fedq-setup looks at them, and the shell makes their tables."""
from __future__ import annotations

import re, sys, threading, time
from collections.abc import Iterator
from contextlib import contextmanager

from ..notes import notes_of
from .commands import path_of
from .keeper import OWNER, Broken
from .statements import ScriptReader, statements_of

if False:  # (for the types alone)
    from ..setup.set_up import SetUp
    from .interrupts import Interrupts
    from .session import Session
    from .words import Words

# What comes before the first statement: blanks, comments, and commands but \i.
BEFORE = re.compile(r"(?:\s+|--[^\n]*|\\(?!i\s)[^\n]*)*")
MAKES = re.compile(r"(?:create|drop)\b", re.I)
INCLUDES = re.compile(r"\\i\s+([^\n]*)")
MOST_NESTED = 16


def are_to_be_looked_at(words: Words, is_person: bool, interrupts: Interrupts) -> bool:
    """Whether tables are to be made of the sources: there are some, no init file makes any, and the first statement makes and drops no
    object."""
    if words.inits or words.makes_no_tables or words.port or all(kind == "list" for kind, _, _ in words.sources):
        return False
    if not all(name and path or kind == "list" for kind, name, path in words.sources):
        return False  # (the program says what is wrong with such arguments)
    return is_person or not makes_objects(first_text(words, interrupts))


def first_text(words: Words, interrupts: Interrupts) -> str:
    """The text that has the first statement: of -c, of -f, or what standard input begins with, which stays there."""
    if words.inputs:
        option, text = words.inputs[0]
        return text if option == "-c" else f"\\i {text}"
    with interrupts.allowed():
        return sys.stdin.buffer.peek(1).decode(errors="replace")


def makes_objects(text: str, depth: int = 0) -> bool:
    """Whether the first statement of a text, or of the file that it includes, is on objects."""
    begin = BEFORE.match(text).end()
    included = INCLUDES.match(text, begin)
    if not included or depth == MOST_NESTED:
        return bool(MAKES.match(text, begin))
    try:
        with open(path_of(included[1].strip().rstrip(";").strip()), encoding="utf-8", errors="replace") as file:
            return makes_objects(file.read(), depth + 1)
    except OSError:
        return False


@contextmanager
def progress(watcher: object, what: str) -> Iterator[None]:
    """Shows on a terminal what goes on, from the first second on."""
    began, is_done = time.monotonic(), threading.Event()

    def tick() -> None:
        while not is_done.wait(0.1):
            watcher.tick(time.monotonic() - began, what)
    thread = threading.Thread(target=tick, daemon=True)
    thread.start()
    try:
        yield
    finally:
        is_done.set()
        thread.join()
        watcher.clear()


def looked_at(session: Session) -> SetUp:
    """What fedq-setup makes of the sources. Says what matters of each file, a line each, and opens no database without a table that can
    be bound. Fails with Broken where a folder or a database is not there."""
    from ..setup.looking import in_one_line, lacking
    from ..setup.set_up import set_up
    words, found = session.words, {}
    for kind, name, path in words.sources:
        why = kind != "list" and lacking(kind, path)
        if why:
            raise Broken(why)
        found.setdefault(kind, {})[name] = path
    with progress(session.watcher, "looking at the files"), session.interrupts.allowed():
        made = set_up(found, files=words.files)
    session.tell(*filter(None, map(in_one_line, made.reports)))
    words.leave_out(made.unbound)
    session.catalogue.sources = list(words.sources)
    session.hints.is_set_up = True  # (what was said of the files is why there are no tables)
    return made


def make_tables(session: Session, made: SetUp) -> None:
    """Runs the script that fedq-setup wrote. A statement that is refused is said in one line, and is no refusal of the person's."""
    text = "\n".join(made.script)
    for statement in statements_of(text, ScriptReader()):
        reply = session.keeper.ask_as(OWNER, statement.text)
        if reply.code:
            session.tell(f"not made, {reply.code} {reply.name.replace('_', ' ')}: {statement.text}")
        else:
            session.keeper.note(OWNER, statement.text, reply)
    session.notes += notes_of(text)
