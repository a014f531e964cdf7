"""The commands that begin with a backslash, and the words help, quit and exit."""
from __future__ import annotations

import os

from ..terminal import folder_word, path_word, printable
from . import copying, editing, lists
from .description import everything, one
from .elsewhere import asked_table, know_tables
from .statements import Reader
from .words import FORMATS

OF_SERVED = "(of a served engine the shell knows what was made through it alone; \\d NAME gets a table's columns)"
MOST_NESTED = 16  # files that read one another


class Leave(Exception):
    """The person wants to leave."""


class Failed(Exception):
    """A command could not be done; the text says why."""


def told_of(fault: Exception) -> str:
    """A fault's text; of one of the system the file and why."""
    return f"{fault.filename}: {fault.strerror}" if isinstance(fault, OSError) and fault.filename else str(fault)


def path_of(argument: str) -> str:
    """A path as it was typed, in quotes or without."""
    return os.path.expanduser(argument.strip("'\""))


class Commands:
    """Does what command lines say."""

    def __init__(self, session) -> None:
        self.session, self.depth, self.reader, self.lines = session, 0, Reader(), None
        self.known = {
            "\\d": ("[NAME]", "the tables, servers, mappings and sources; or one of them", self.describe),
            "\\dt": ("", "the tables, with their servers and files", self.list_tables),
            "\\df": ("", "the functions", self.list_functions),
            "\\l": ("", "the sources", self.list_sources),
            "\\i": ("FILE", "runs the statements of a file", self.include),
            "\\e": ("[FILE]", "edits the statement, or a file, and runs it", self.edit),
            "\\copy": ("(SELECT ..) TO FILE", "writes the rows of a query to a file", self.copy),
            "\\o": ("[FILE]", "writes rows to a file; without one, here again", self.redirect),
            "\\save": ("FILE", "writes what made the tables to a file, for --init", self.save),
            "\\x": ("", "one line for each field of a row, or tables again", self.expand),
            "\\format": ("[FORMAT]", ", ".join(FORMATS), self.set_format),
            "\\null": ("[TEXT]", "what is shown for NULL in tables", self.set_null),
            "\\timing": ("[on|off]", "whether the time of each statement is shown", self.set_timing),
            "\\pager": ("", "whether long tables go through PAGER, or less", self.switch_pager),
            "\\?": ("", "this text; also help", self.help),
            "\\q": ("", "leaves; also quit, exit and Ctrl-D", self.leave),
        }

    def is_command(self, line: str, is_inside: bool, is_typed: bool) -> bool:
        """Whether a line is a command. Within a statement its words are a command only where a person types them: a file may have a column
        help."""
        word = line.strip().rstrip(";").strip()
        is_word = word.lower() in ("help", "quit", "exit")
        return word.startswith("\\") or is_word and (is_typed or not is_inside)

    def obey(self, line: str) -> bool:
        """Does what a command line says; whether it could be done. Raises Leave."""
        name, _, argument = line.strip().rstrip(";").strip().partition(" ")
        name = {"help": "\\?", "quit": "\\q", "exit": "\\q"}.get(name.lower(), name)
        name = "\\d" if name == "\\dt" and argument.strip() else name
        try:
            if name not in self.known:
                raise Failed(f"no such command: {name}; \\? helps")
            return self.known[name][2](argument.strip()) is not False
        except BrokenPipeError:
            raise
        except (Failed, OSError) as fault:
            self.session.has_refused = True
            self.session.tell(f"ERROR: {told_of(fault)}")
            return False

    def acknowledge(self, text: str) -> None:
        """Says to a person what is set; a script has only rows on its standard output."""
        if self.session.is_person:
            self.session.show_here(text)

    # Each takes its argument.

    def help(self, _argument: str) -> None:
        """Prints the commands."""
        forms = [f"  {f'{name} {argument}':<26}{what}" for name, (argument, what, _) in self.known.items()]
        lines = ["SQL ends with ; and may go over several lines; -- begins a comment. Ctrl-C stops a statement, or drops the line.", *forms,
                 f"NULL is shown as {self.session.settings.null}; in csv it is an empty field, and the empty text \"\"; "
                 "in json it is null.",
                 "In tables \\\\, \\t, \\n and \\r are a backslash, TAB and line ends.",
                 "docs/LANGUAGE.md has the SQL, docs/SOURCES.md the options, docs/ERRORS.md what each code means."]
        self.session.show_here(*lines)

    def leave(self, _argument: str) -> None:
        """Ends the shell."""
        raise Leave

    def expand(self, _argument: str) -> None:
        """Shows rows field by field, or as tables again."""
        settings = self.session.settings
        settings.is_expanded = not settings.is_expanded
        self.acknowledge(f"rows are shown {'field by field' if settings.is_expanded else 'as tables'}")

    def set_format(self, argument: str) -> None:
        """Sets how rows are shown."""
        settings = self.session.settings
        if argument and argument not in FORMATS:
            raise Failed(f"a format is {', '.join(FORMATS)}: {argument}")
        settings.format = argument or settings.format
        self.acknowledge(f"the format is {settings.format}")

    def set_null(self, argument: str) -> None:
        """Sets what is shown for NULL in tables."""
        self.session.settings.null = printable(argument.strip("'")) if argument else "\u2205"
        self.acknowledge(f"NULL is shown as '{self.session.settings.null}'")

    def switch_pager(self, _argument: str) -> None:
        """Turns the pager on or off."""
        settings = self.session.settings
        settings.is_paged = not settings.is_paged
        self.acknowledge(f"the pager is {'on' if settings.is_paged else 'off'}")

    def redirect(self, argument: str) -> None:
        """Sends rows to a file, or here again."""
        self.session.open_output(path_of(argument))

    def set_timing(self, argument: str) -> None:
        """Shows the time of each statement, or no longer."""
        if argument not in ("", "on", "off"):
            raise Failed(f"\\timing on or \\timing off: {argument}")
        is_timed = argument == "on" if argument else not self.session.is_timed()
        self.session.settings.is_timed = is_timed
        self.acknowledge(f"the time is {'shown' if is_timed else 'not shown'}")

    def list_tables(self, _argument: str) -> None:
        """Prints the tables."""
        know_tables(self.session)
        self.session.show_rows(*lists.tables(self.session.catalogue))

    def list_functions(self, _argument: str) -> None:
        """Prints the functions."""
        self.session.show_rows(*lists.functions())

    def list_sources(self, _argument: str) -> None:
        """Prints the sources."""
        self.session.show_rows(*lists.sources(self.session.catalogue))

    def copy(self, argument: str) -> bool:
        """Writes the rows of a query to a file; whether that was done."""
        try:
            wanted = copying.read(argument)
        except ValueError as fault:
            raise Failed(str(fault))
        count = copying.copy_rows(self.session, wanted)
        if count is not None and wanted.file:
            self.session.show_here(f"COPY {count}")
        return count is not None

    def edit(self, argument: str) -> bool:
        """Has a person edit the statement that was begun, else the last one, or a file; whether what was left of it could be done."""
        session, reader = self.session, self.reader
        if not session.is_person:
            raise Failed("\\e needs a terminal")
        if not editing.editor():
            raise Failed("no editor is there: EDITOR names one")
        if argument:
            return editing.edited(path_of(argument), session.interrupts) and self.include(argument)
        begun = reader.text
        text = editing.edited_text(begun or session.last_statement, session.interrupts)
        if text is None or not begun and text.strip() == session.last_statement.strip():
            self.acknowledge("nothing was changed, and nothing is run")
            return True
        reader.drop()
        session.show_here(*text.rstrip("\n").split("\n"))
        if self.lines:
            self.lines.remember(text.rstrip("\n"))
        return all([self.take(reader, line, 0, "") for line in text.rstrip("\n").split("\n")])

    def save(self, argument: str) -> None:
        """Writes what made the objects to a file, and says what reads it."""
        if not argument:
            raise Failed("\\save needs a file")
        path, text = path_of(argument), self.session.script()
        with open(path, "w", encoding="utf-8", newline="\n") as file:
            file.write(text)
        words = " ".join(f"--{kind} {name}{'=' * bool(place)}{folder_word(place)}" if place else f"--{kind} {name}"
                         for kind, name, place in self.session.words.sources)
        self.acknowledge(f"saved: fedq-shell {words} --init {path_word(path)}")

    def include(self, argument: str) -> bool:
        """Runs the statements of a file; whether all were done."""
        if not argument:
            raise Failed("\\i needs a file")
        if self.depth == MOST_NESTED:
            raise Failed(f"{argument}: more than {MOST_NESTED} files are inside one another")
        with open(path_of(argument), "rb") as file:
            lines = file.read().decode(errors="surrogateescape").split("\n")
        self.depth += 1
        try:
            return self.run_lines(lines, argument)
        except Leave:
            return True
        finally:
            self.depth -= 1

    def run_lines(self, lines: list[str], name: str) -> bool:
        """Runs statements and commands of a file or of a word; whether all were done."""
        reader, is_good = Reader(), True
        for number, line in enumerate(lines, 1):
            is_good = self.take(reader, line.rstrip("\r"), number, name) and is_good
            if not is_good and self.session.words.stops:
                return False
        return all([self.session.run(it, name) for it in reader.rest()]) and is_good

    def take(self, reader: Reader, line: str, number: int, name: str) -> bool:
        """Runs what ends in a line; whether all was done."""
        if self.is_command(line, reader.is_inside, self.session.is_person and not name):
            self.reader = reader
            return self.obey(line)
        is_good = True
        for statement in reader.take(line, number):
            is_good = self.session.run(statement, name) and is_good
            if not is_good and self.session.words.stops:
                break
        return is_good

    def describe(self, argument: str) -> None:
        """Prints what is known, or one table or server."""
        is_gateway, catalogue = know_tables(self.session), self.session.catalogue
        name = argument[1:-1].replace('""', '"') if argument.startswith('"') else argument.lower()
        lines = list(one(catalogue, name) if name else everything(catalogue))
        if not name and self.session.words.port:
            lines += [] if is_gateway else [OF_SERVED]
        self.session.show_here(*(lines or self.asked(name)))

    def asked(self, name: str) -> list[str]:
        """What is shown of a table that the shell has not seen made, by the engine's answer."""
        if asked_table(self.session, name) is None:
            raise Failed(f"no table or server {name} is known")
        return list(one(self.session.catalogue, name))
