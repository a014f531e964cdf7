"""From the arguments to the end of the shell."""
from __future__ import annotations

import os, shutil, subprocess, sys

from ..terminal import printable
from . import sources
from .commands import Commands, Leave, told_of
from .completion import Completer
from .editor_lines import lines_for
from .elsewhere import know_tables
from .engine import Ended
from .interrupts import Interrupts
from .keeper import Broken
from .session import Session
from .statements import Reader
from .words import USAGE, BadWords, read

if False:  # (for the types alone)
    from ..setup.set_up import SetUp

REFUSED, INTERRUPTED = 1, 130


def main(home: str, given: list[str]) -> int:
    """Runs the shell, and returns its status."""
    try:
        words = read(given)
    except BadWords as fault:
        return fail(f"{fault}; fedq-shell --help has the arguments", 2)
    if words.asks_help:
        print(USAGE, end="")
        return 0
    if words.asks_version:
        program = os.environ.get("FEDQ_PROGRAM") or os.path.join(home, "fedq")
        return subprocess.call([program, "--version"])
    return Shell(home, words).run()


def fail(text: object, status: int) -> int:
    """Prints why the shell ends, and returns this status."""
    sys.stdout.flush()
    print(f"fedq-shell: {printable(str(text))}", file=sys.stderr)
    return status


class Shell:
    """One run of the shell."""

    def __init__(self, home, words) -> None:
        self.home, self.words, self.interrupts, self.session, self.lines = home, words, Interrupts(), None, None
        self.is_person = not words.inputs and sys.stdin.isatty()

    def run(self) -> int:
        """Begins, runs what is given or typed, and ends; returns the status. Whatever happens, the program that was started is ended."""
        try:
            status = self.run_session()
        except KeyboardInterrupt:
            status = INTERRUPTED
        except Broken as fault:
            status = fail(fault, 1)
        except Ended as end:
            why = f"the program ended by signal {-end.status}" if end.status else "the engine ended"
            status = end.status if end.status > 0 else fail(why, 1)
        except BrokenPipeError:
            os.dup2(os.open(os.devnull, os.O_WRONLY), 1)
            status = 141
        finally:
            self.interrupts.ignore_all()
            if self.lines:
                self.lines.keep()
            if self.session:
                self.session.keeper.stop()
        return status

    def run_session(self) -> int:
        """Runs the session to its end; the status."""
        try:
            self.session = session = Session(self.home, self.words, self.interrupts, self.is_person)
        except OSError as fault:
            return fail(told_of(fault), 1)
        commands, made = Commands(session), self.looked_at()
        session.keeper.begin()
        for name in self.words.inits:
            session.run_init(name)
        if made:
            self.make_tables(made)
        if self.words.save and not commands.obey(f"\\save {self.words.save}"):
            return 1
        if self.words.inputs:
            self.run_inputs(commands)
        elif self.is_person:
            self.run_person(commands)
        else:
            self.run_standard_input(commands)
        self.interrupts.ignore_all()
        session.open_output("")
        sys.stdout.flush()
        status = session.keeper.finish()
        return status if status > 0 else REFUSED if session.has_refused and not self.is_person else 0

    def run_inputs(self, commands: Commands) -> None:
        """Runs what -c and -f name, in their order."""
        for option, text in self.words.inputs:
            try:
                if option == "-c":
                    is_good = commands.run_lines(text.split("\n"), "")
                else:
                    is_good = commands.obey(f"\\i {text}")
            except Leave:
                return
            if not is_good and self.words.stops:
                return

    def run_standard_input(self, commands: Commands) -> None:
        """Runs the statements of standard input as they come."""
        reader, number = Reader(), 0
        try:
            while True:
                with self.interrupts.allowed():
                    line = sys.stdin.buffer.readline()
                number += 1
                is_good = commands.take(reader, line.decode(errors="surrogateescape").rstrip("\r\n"), number, "") if line else True
                if not line or not is_good and self.words.stops:
                    break
            for statement in reader.rest():
                self.session.run(statement)
        except Leave:
            pass

    def run_person(self, commands: Commands) -> None:
        """Reads and does what a person types, to the end."""
        know_tables(self.session)
        self.lines = commands.lines = lines_for(Completer(self.session.catalogue, commands.known))
        self.session.show_here("Type \\? for help.")
        reader, begun = Reader(), []
        while True:
            try:
                with self.interrupts.allowed():
                    typed = self.lines.next(reader)
                begun = self.remembered(commands, reader, begun, typed)
                for line in typed:
                    commands.take(reader, line, 0, "")
            except KeyboardInterrupt:
                self.session.watcher.clear()
                self.session.show_here("")
                self.lines.remember("\n".join(begun))
                reader.drop()
                begun = []
            except EOFError:
                self.session.show_here("")
                if reader.is_inside:
                    self.session.tell("the unfinished statement was not run")
                return
            except Leave:
                return

    def remembered(self, commands: Commands, reader: Reader, begun: list[str], typed: list[str]) -> list[str]:
        """Takes what was typed into the history, a statement as a whole; the lines of the statement that is not at its end. `begun` are
        those before what was typed."""
        if len(typed) == 1 and commands.is_command(typed[0], reader.is_inside, True):
            self.lines.remember(typed[0])
            return begun
        begun, ahead = [*begun, *typed], reader.copy()
        for line in typed:
            ahead.take(line)
        if ahead.is_inside:
            return begun
        self.lines.remember("\n".join(begun))
        return []

    # Sources without objects

    def looked_at(self) -> SetUp | None:
        """What fedq-setup makes of the sources, where tables are to be made of them. That is before the program begins, which may change
        a database that it opens."""
        is_so = sources.are_to_be_looked_at(self.words, self.is_person, self.interrupts)
        return sources.looked_at(self.session) if is_so else None

    def make_tables(self, made: SetUp) -> None:
        """Makes these tables, and shows a person which."""
        sources.make_tables(self.session, made)
        if self.is_person:
            tables = self.session.catalogue.of_kind("table")
            width = shutil.get_terminal_size().columns
            lines = [it if len(it) <= width else it[:width - 2] + ".." for it in map(str, tables)]
            self.session.show_here(*lines, f"({len(tables)} table{'s' * (len(tables) != 1)}; \\save FILE keeps what made them)")
