"""Statements: how lines are cut into them, and statements into tokens."""
from __future__ import annotations

import re
from collections import namedtuple

from .. import sql

LONGEST = 1_048_500  # of a statement, in bytes: a request line has 1,048,576
PIECE = re.compile(r"""'[^']*'?|"[^"]*"?|--.*|;|[^'";-]+|-""", re.S)
# Words that begin a statement, and are nowhere else in one.
BEGINS = re.compile(r"\s*(create|drop|insert|update|delete|declare|fetch)\b", re.I)
BEFORE_SELECT = re.compile(r"\s*(insert|declare)\b(?!.*\bselect\b)", re.I | re.S)

# A statement's text, the line in which it begins, and what is wrong with it before it is sent (or nothing).
Statement = namedtuple("Statement", "text line fault")
# Its kind is `word` (its value in lower case), `quoted`, `text` (their values without quotes), `number`, `parameter` or `mark`.
Token = namedtuple("Token", "kind value")


def fault_of(text: str, is_broken: bool) -> str:
    """Why a statement cannot be sent; nothing where it can."""
    if is_broken:
        return "a text or name in quotes cannot go over a line end"
    try:
        if len(text.encode()) > LONGEST:
            return "the statement is longer than a request line may be (1,048,576 bytes)"
    except UnicodeEncodeError:
        return "the statement is not UTF-8"
    return ""


class Reader:
    """Cuts lines into statements, each up to its semicolon."""

    def __init__(self) -> None:
        self.drop()

    def drop(self) -> None:
        """Forgets what was read of a statement."""
        self.parts, self.line, self.quote, self.is_broken = [], 0, "", False

    def copy(self) -> Reader:
        """A reader that has read the same."""
        other = Reader()
        other.parts, other.line, other.quote, other.is_broken = [*self.parts], self.line, self.quote, self.is_broken
        return other

    @property
    def is_inside(self) -> bool:
        """Whether a statement was begun."""
        return bool(self.quote) or any(it.strip() for it in self.parts)

    @property
    def text(self) -> str:
        """What was read of a statement."""
        return "".join(self.parts).strip()

    def end(self) -> list[Statement]:
        """The statement that ends here, alone in a list; none where there is no text."""
        text = "".join(self.parts).strip()
        found = [Statement(text, self.line, fault_of(text, self.is_broken))] if text else []
        self.drop()
        return found

    def take(self, line: str, number: int = 0) -> list[Statement]:
        """The statements that end in this line, whose number is given."""
        found, at = [], 0
        if self.quote:
            at = line.find(self.quote) + 1
            self.parts.append(line[:at] if at else line)
            if not at:
                return found
            self.quote = ""
        for piece in PIECE.findall(line, at):
            if piece == ";":
                found += self.end()
            elif piece.startswith("--"):
                break
            else:
                self.add(piece, number)
        self.is_broken = self.is_broken or bool(self.quote)
        self.parts.append(" ")
        return found

    def add(self, piece: str, number: int) -> None:
        """Takes a piece of a line into the statement."""
        if not self.line and piece.strip():
            self.line = number
        self.parts.append(piece)
        if piece[0] in "'\"" and (len(piece) == 1 or piece[-1] != piece[0]):
            self.quote = piece[0]

    def rest(self) -> list[Statement]:
        """What comes after the last semicolon, as a list of one statement or none."""
        if self.quote:
            statement = Statement("", self.line, "a quote is not closed")
            self.drop()
            return [statement]
        return self.end()


class ScriptReader(Reader):
    """Cuts an init file. `fedq run --init` takes one statement a line, without semicolons, and the shell one over several lines: a
    statement ends at its semicolon, and before a line that begins another one."""

    def take(self, line: str, number: int = 0) -> list[Statement]:
        """The statements that end in this line, or before it, whose number is given."""
        found = []
        text = "".join(self.parts)
        if not self.quote and self.is_inside:
            if BEGINS.match(line) or re.match(r"\s*select\b", line, re.I) and not BEFORE_SELECT.match(text):
                found = self.end()
        return found + super().take(line, number)


def statements_of(text: str, reader: Reader | None = None) -> list[Statement]:
    """All statements of a text."""
    reader = reader or Reader()
    found = []
    for number, line in enumerate(text.split("\n"), 1):
        found += reader.take(line.rstrip("\r"), number)
    return found + reader.rest()


def tokens(text: str) -> list[Token]:
    """The tokens of a statement, comments left out; none where it is no SQL that can be sent, as where a comment is not closed."""
    try:
        return [Token(it.kind, it.value) for it in sql.tokens(text)]
    except sql.Unsayable:
        return []
