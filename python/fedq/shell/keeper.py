"""Keeps an engine: begins it, and begins it anew with what was made in it."""
from __future__ import annotations

import os, re, shutil

from .catalogue import Parser
from .engine import Connection, Ended, Program
from .queries import entries
from .statements import tokens

if False:  # (for the types alone)
    from .engine import Engine, Reply

PERSON, OWNER = 1, 2  # the numbers of the sessions on the engine: whose shell it is, and who runs --init
WRITES = re.compile(r"\s*(insert|update|delete)\b", re.I)


class Broken(Exception):
    """The session could not begin; the text says why."""


class Keeper:
    """The engine of one shell. `tell` takes lines to be said of it."""

    def __init__(self, home, words, interrupts, watcher, catalogue, tell) -> None:
        self.home, self.words, self.interrupts, self.watcher, self.catalogue, self.tell = home, words, interrupts, watcher, catalogue, tell
        self.engine, self.made, self.has_owner, self.is_to_begin = None, [], False, False

    def begin(self) -> None:
        """Starts the program, or connects, and opens the person's session. Raises Broken or Ended."""
        self.stop()
        try:
            self.engine, self.has_owner = self.new_engine(), False
        except OSError as fault:
            raise Broken(f"cannot start {fault.filename}: {fault.strerror}; FEDQ_PROGRAM may name the program")
        if self.engine.ask(PERSON, f"OPEN {self.words.user}", drop).code:
            raise Broken(f"{self.words.user!r} is no name of a user: a-z, 0-9 and _, no digit first")

    def new_engine(self) -> Engine:
        """Starts the program, or connects."""
        if self.words.port:
            return self.connection(self.words.port)
        beside = os.path.join(self.home, "fedq")
        program = os.environ.get("FEDQ_PROGRAM") or (beside if os.path.exists(beside) else shutil.which("fedq") or beside)
        return Program([program, "run", *self.words.program_words], self.watcher, self.interrupts)

    def connection(self, port: int) -> Connection:
        """Connects to a port; fails with Broken where nobody serves it."""
        try:
            return Connection(port, self.watcher, self.interrupts)
        except OSError as fault:
            way_out = f"./fedq serve --port {port} does, for one connection after the other"
            raise Broken(f"nobody serves port {port}: {fault.strerror}; {way_out}")

    def ask_as(self, session: int, text: str) -> Reply:
        """Sends a statement in one of the two sessions, and drops its rows."""
        if session == OWNER and not self.has_owner:
            self.engine.ask(OWNER, f"OPEN {self.words.owner}", drop)
            self.has_owner = True
        return self.engine.ask(session, f"Q {text}", drop)

    def note(self, session: int, text: str, reply: Reply) -> None:
        """Keeps what a statement that was done has made: objects, and rows that live in the program."""
        is_object = reply.tag.startswith(("CREATE", "DROP"))
        if is_object:
            self.catalogue.note(text)
        if is_object or WRITES.match(text) and any(self.catalogue.is_in_memory(table) for _, table in entries(tokens(text))[:1]):
            self.made.append((session, text))

    def made_objects(self) -> list[str]:
        """The statements on objects that were done, in their order."""
        return [text for _, text in self.made if not WRITES.match(text)]

    def begin_anew(self) -> None:
        """Ends the engine, and begins it anew with what was made in it, unless it is a served one: that is connected to with the next
        statement, since it may still be at work. Says what was done, and what is gone. Where it is interrupted or does not begin, the
        next statement tries again."""
        self.stop()
        self.is_to_begin = True
        cursors, self.catalogue.cursors = sorted(self.catalogue.cursors), {}
        if cursors:
            self.tell(f"gone: cursor {', '.join(cursors)}")
        if self.words.port:
            self.tell("the connection was closed; the engine goes on until the statement is done, and the next one connects anew")
        else:
            self.catch_up()

    def catch_up(self) -> bool:
        """Begins the engine where it is to begin, and makes again what was made in it; whether it is there."""
        try:
            if self.is_to_begin:
                self.begin()
                count = self.make_all_again()
                self.is_to_begin = False
                again = f", and {count} statement{'s' * (count != 1)} made again" if count else ""
                self.tell("connected anew" if self.words.port else f"the program was begun anew{again}")
        except Broken as fault:
            self.tell(f"ERROR: {fault}")
        except Ended as end:
            self.tell(f"ERROR: the program did not begin: status {end.status}")
        return not self.is_to_begin

    def make_all_again(self) -> int:
        """Sends once more what made objects and rows, and reports what is refused; how many statements were done. (A served engine has kept
        them.)"""
        done = []
        for session, text in [] if self.words.port else self.made:
            reply = self.ask_as(session, text)
            if not reply.code:
                done.append((session, text))
                continue
            self.tell(f"gone: {text}", f"  ERROR {reply.code}: {reply.name.replace('_', ' ')}")
            gone = Parser(text).object()
            if gone:
                self.catalogue.objects.pop((gone.kind, gone.name), None)
        self.made = done
        return len(done)

    def stop(self) -> None:
        """Ends the engine at once."""
        if self.engine:
            self.engine.stop()

    def finish(self) -> int:
        """Ends the engine in order, and returns its status."""
        return self.engine.stop() if self.engine.is_busy or self.is_to_begin else self.engine.finish()


def drop(_page: str) -> None:
    """Takes lines of a reply that nobody looks at."""
