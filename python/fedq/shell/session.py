"""One session: its engine, what was made in it, and what its answers look like."""
from __future__ import annotations

import os, re, sys, time

from ..names import quoted_name
from ..notes import comment_of, notes_of
from ..terminal import printable, printable_rows
from .catalogue import Catalogue, Parser
from .column_hints import column_hints
from .elsewhere import know_tables_of, notes_by_rows
from .engine import Ended, Nobody, Reply
from .hints import Hints
from .keeper import OWNER, PERSON, WRITES, Broken, Keeper
from .output import Writer, json_printable, rows_text, writer
from .person import Spinner, paged
from .queries import Types
from .statements import ScriptReader, statements_of, tokens
from .types import types_by_engine

if False:  # (for the types alone)
    from .statements import Statement, Token


class Settings:
    """How answers are shown."""

    def __init__(self, words) -> None:
        self.format, self.is_expanded, self.null, self.is_paged = words.format, words.is_expanded, printable(words.null), True
        self.is_timed = None  # whether the time is shown; None: to a person, under what is no file

    def has_types(self) -> bool:
        """Whether what is shown depends on the types of the columns."""
        return self.format in ("json", "jsonl", "markdown")


class Session:
    """Sends statements and shows their answers."""

    def __init__(self, home, words, interrupts, is_person) -> None:
        self.home, self.words, self.interrupts, self.is_person = home, words, interrupts, is_person
        self.settings, self.output, self.output_name = Settings(words), sys.stdout.buffer, ""
        self.is_terminal = sys.stdout.isatty()
        self.catalogue, self.notes = Catalogue(words.sources), []
        self.hints = Hints(home, self.catalogue, words.user, bool(words.port))
        self.looked_at = {}  # the kinds of notes of a table's column, of an engine at a port
        self.last_statement = ""
        self.watcher, self.has_refused = Spinner() if sys.stderr.isatty() else Nobody(), False
        self.keeper = Keeper(home, words, interrupts, self.watcher, self.catalogue, self.tell)
        if words.output:
            self.open_output(words.output)

    # Statements

    def run_init(self, name: str) -> None:
        """Runs an init file as the owner; raises Broken where it cannot be read or a statement is refused."""
        try:
            with open(name, "rb") as file:
                text = file.read().decode()
        except OSError:
            raise Broken(f"cannot read init {name}")
        except UnicodeDecodeError:
            raise Broken("init is not UTF-8")
        self.notes += notes_of(text)
        for statement in statements_of(text, ScriptReader()):
            if not self.run_as_owner(statement, name):
                raise Broken(f"{name} was not run to its end, and no statement after it")

    def run_as_owner(self, statement: Statement, name: str) -> bool:
        """Runs one statement of the owner; whether it was done. A refusal is printed."""
        if statement.fault:
            self.tell_fault(statement, name)
            return False
        reply = self.keeper.ask_as(OWNER, statement.text)
        if reply.code:
            self.tell_refusal(reply, statement, name, shows_text=True)
        else:
            self.keeper.note(OWNER, statement.text, reply)
        return not reply.code

    def run(self, statement: Statement, name: str = "") -> bool:
        """Sends a statement and shows its answer; whether it was done. `name` is the file that it is from."""
        if statement.fault:
            self.tell_fault(statement, name)
            return False
        if not self.keeper.catch_up():
            return False
        self.last_statement = f"{statement.text};"
        began = time.monotonic()
        shown = writer(self.settings, self.types_of(statement.text), self.show)
        reply = self.reply_to(statement.text, shown)
        if reply and reply.code:
            self.tell_refusal(reply, statement, name)
        elif reply:
            seconds = time.monotonic() - began
            self.keeper.note(PERSON, statement.text, reply)
            self.note_cursor(statement.text, reply)
            if reply.tag.startswith(("CREATE", "DROP")):
                self.looked_at.clear()
            self.show_answer(shown, reply)
            self.show_time(seconds)
            hints = column_hints(statement.text, notes_by_rows(self, statement.text) if self.words.port else self.notes)
            if hints:
                self.tell(*hints)
        return bool(reply and not reply.code)

    def is_timed(self) -> bool:
        """Whether the time of a statement is shown: by default to a person, where what is shown is for persons."""
        set_by_hand = self.settings.is_timed
        return self.is_person and self.settings.format == "aligned" if set_by_hand is None else set_by_hand

    def show_time(self, seconds: float) -> None:
        """Shows how long the answer took, up to its last row: a pager's time is not in it."""
        if self.is_timed():
            (self.show_here if self.is_person else self.tell)(f"Time: {seconds * 1000:.1f} ms")

    def reply_to(self, text: str, shown: Writer) -> Reply | None:
        """Sends a statement; `shown` takes its rows. Returns the reply, or None where there is none and this was printed."""
        engine, began = self.keeper.engine, time.monotonic()
        try:
            return engine.ask(PERSON, f"Q {text}", shown.take)
        except KeyboardInterrupt:
            self.watcher.clear()
            self.interrupted(time.monotonic() - began, text)
            raise
        except Ended as end:
            self.ended(end)
        except OSError as fault:
            if not self.output_name:
                raise
            engine.drain(PERSON)
            self.tell(f"ERROR: {self.output_name}: {fault.strerror}")
            self.has_refused = True
        return None

    def types_of(self, text: str) -> list[str]:
        """The types of a query's columns, as far as the shell knows them."""
        found = tokens(text) if len(text) < 20000 else []
        words = [it.value for it in found[:1]]
        if words == ["fetch"]:
            return self.catalogue.cursors.get(found[-1].value if found[-1].value != ";" else found[-2].value, [])
        return self.types_of_query(text, found, self.settings.has_types()) if words == ["select"] else []

    def types_of_query(self, text: str, found: list[Token], matter: bool) -> list[str]:
        """The types of a query's columns. Where they matter and the shell does not know all, the engine is asked."""
        known = Types(self.catalogue, found).of_output()
        if known and "" not in known or not matter:
            return known
        return types_by_engine(text, self.code_of) or known

    def interrupted(self, seconds: float, text: str) -> None:
        """Ctrl-C came while a statement ran: reads the rest of its rows where some came, else stops it. A person's engine is begun
        anew."""
        engine = self.keeper.engine
        try:
            if engine.has_rows:
                engine.drain(PERSON)
        except (KeyboardInterrupt, Ended):
            pass
        if engine.is_busy and self.is_person:
            is_write = bool(WRITES.match(text))
            self.tell("", f"stopped after {seconds:.1f} s{'; look whether its rows were written' * is_write}")
            self.keeper.begin_anew()
            left = [os.path.join(path, ".fedq.tmp") for kind, _, path in self.words.sources if kind in ("csv", "jsonl")] if is_write else []
            for path in filter(os.path.exists, left):
                self.tell(f"the stopped statement has left {path}: remove it")

    def ended(self, end: Ended) -> None:
        """The engine ended by itself while a statement ran. A person's is begun anew."""
        if not self.is_person:
            raise end
        self.tell("the connection ended" if self.words.port else f"the program ended by signal {-end.status}" if end.status < 0 else
                  f"the program ended with status {end.status}")
        self.has_refused = True
        self.keeper.begin_anew()

    def note_cursor(self, text: str, reply: Reply) -> None:
        """Keeps of a cursor the types of its columns."""
        if reply.tag == "DECLARE CURSOR":
            found = tokens(text)
            select = found.index(("word", "select"))
            query = text[re.search(r"\bselect\b", text, re.I).start():]
            self.catalogue.cursors[found[1].value] = self.types_of_query(query, found[select:], matter=True)
        elif reply.tag == "CLOSE CURSOR":
            self.catalogue.cursors.pop(tokens(text)[1].value, None)

    # What is shown

    def show(self, text: str) -> None:
        """Writes rows to where rows go: exactly, but to a terminal as it may show them."""
        if self.is_terminal and not self.output_name:
            text = (json_printable if self.settings.format in ("json", "jsonl") else printable_rows)(text)
        self.output.write(text.encode(errors="replace"))

    def show_here(self, *lines: str) -> None:
        """Writes lines to standard output, wherever rows go, as a terminal may show them."""
        sys.stdout.buffer.write("".join(f"{printable(it)}\n" for it in lines).encode())
        sys.stdout.buffer.flush()

    def show_answer(self, shown: Writer, reply: Reply) -> None:
        """Shows an answer's rows, or its tag."""
        if not shown.names:
            if self.settings.format == "aligned":
                self.show_here(reply.tag)
            return
        is_paged = self.is_person and self.settings.is_paged and not self.output_name
        try:
            with paged(shown.height_and_width() if is_paged else (0, 0), self.interrupts) as pager:
                shown.write = pager.write if pager else self.show
                if pager:
                    shown.end()
                else:
                    with self.interrupts.allowed():
                        shown.end()
        finally:
            self.output.flush()

    def open_output(self, name: str) -> None:
        """Sends rows to a file; to standard output where no name is given. Raises OSError."""
        opened = open(name, "wb") if name else sys.stdout.buffer
        if self.output_name:
            self.output.close()
        self.output, self.output_name = opened, name

    def tell(self, *lines: str) -> None:
        """Writes lines to standard error, after what standard output has so far, as a terminal may show them."""
        sys.stdout.buffer.flush()
        sys.stderr.buffer.write("".join(f"{printable(it)}\n" for it in lines).encode())
        sys.stderr.buffer.flush()

    def tell_fault(self, statement: Statement, name: str) -> None:
        """Says why a statement cannot be sent."""
        self.has_refused = True
        self.tell(f"{self.place(statement, name)}ERROR: {statement.fault}")

    def tell_refusal(self, reply: Reply, statement: Statement, name: str, shows_text: bool = False) -> None:
        """Prints why a statement was refused, and what may help."""
        self.has_refused = True
        lines = [f"{self.place(statement, name)}ERROR {reply.code}: {reply.name.replace('_', ' ')}"]
        lines += [f"  {statement.text}"] if shows_text else []
        sentence = self.hints.sentence(reply.code)
        lines += [f"  {sentence}"] if sentence else []
        try:
            self.hints.lists_tables = not self.words.port or know_tables_of(self, statement.text)
            with self.interrupts.allowed():
                lines += [f"  {it}" for it in self.hints.lines(reply.code, statement.text)]
        finally:
            self.tell(*lines)

    def script(self) -> str:
        """What made the objects that are there now, a statement a line, with the notes on their columns, as `--init` reads it."""
        lines = []
        for text in self.keeper.made_objects():
            made = Parser(text).object()
            notes = [it for it in self.notes if made and not made.is_drop and made.kind == "table" and it.table == made.name]
            lines.append(f"{text}{comment_of(notes)}\n")
        return "".join(lines)

    def show_rows(self, names: list[str], rows: list[list[str]]) -> None:
        """Shows rows of the shell's own, where rows go."""
        shown = writer(self.settings, [], self.show)
        shown.take(rows_text(names, rows))
        self.show_answer(shown, Reply("", "", ""))

    def code_of(self, text: str) -> str:
        """The code with which the engine refuses a statement, whose rows are dropped."""
        return self.keeper.ask_as(PERSON, text).code

    def place(self, statement: Statement, name: str) -> str:
        """Where a statement of a file, or of standard input, begins."""
        return f"{name} line {statement.line}: " if name else ""
