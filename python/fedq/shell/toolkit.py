"""The lines that a person types, by prompt_toolkit: a statement is edited whole, over all its lines. It is imported only where
prompt_toolkit is installed."""
from __future__ import annotations

import re
from collections.abc import Callable, Iterable

from prompt_toolkit import PromptSession
from prompt_toolkit.completion import Completer as Completes
from prompt_toolkit.completion import Completion
from prompt_toolkit.document import Document
from prompt_toolkit.filters import Condition
from prompt_toolkit.history import History as Remembers
from prompt_toolkit.shortcuts import CompleteStyle

from .completion import DELIMITERS, Completer
from .editor_lines import History, Plain, prompt_of
from .statements import Reader

WORD = re.compile(f"[^{re.escape(DELIMITERS)}]*$")


class Ways(Completes):
    """The shell's ways to go on, in the form that prompt_toolkit takes."""

    def __init__(self, completer: Completer, begun: Callable[[], str]) -> None:
        self.completer, self.begun = completer, begun

    def get_completions(self, document: Document, complete_event: object) -> Iterable[Completion]:
        """The ways at the cursor."""
        text = WORD.search(document.text_before_cursor)[0]
        before = document.text_before_cursor[:len(document.text_before_cursor) - len(text)]
        is_command = before.lstrip().startswith("\\") or not before.strip() and text.startswith("\\")
        begun = self.begun()
        before = before if is_command or not begun else f"{begun}\n{before}"
        for it in self.completer.ways(text, before, f"{begun}\n{document.text}"):
            yield Completion(it, start_position=-len(text))


class Remembered(Remembers):
    """The shell's history, in the form that prompt_toolkit takes."""

    def __init__(self, history: History) -> None:
        super().__init__()
        self.history = history

    def load_history_strings(self) -> Iterable[str]:
        """The statements, the newest first."""
        return reversed(self.history.old)

    def store_string(self, string: str) -> None:
        """Takes a statement in."""
        self.history.add(string)


class ToolkitLines(Plain):
    """Lines by prompt_toolkit. Enter ends a statement that has its semicolon, and a command; else it begins the next line."""

    def __init__(self, completer: Completer, history: History) -> None:
        self.history, self.reader = history, Reader()
        self.remembered = Remembered(history)
        ways = Ways(completer, lambda: self.reader.text)
        self.session = PromptSession(history=self.remembered, completer=ways, complete_style=CompleteStyle.READLINE_LIKE,
                                     complete_while_typing=False, reserve_space_for_menu=0, multiline=Condition(self.goes_on),
                                     prompt_continuation="   -> ")

    def goes_on(self) -> bool:
        """Whether what is typed is no whole statement yet, so that Enter begins its next line."""
        text = self.session.default_buffer.text
        first = text.strip().rstrip(";").lower()
        if not text.strip() or text.lstrip().startswith("\\") or first in ("help", "quit", "exit"):
            return False
        own = Reader()
        own.quote = self.reader.quote
        for line in text.split("\n"):
            own.take(line)
        return own.is_inside

    def next(self, reader: Reader) -> list[str]:
        self.reader = reader
        return self.session.prompt(prompt_of(reader)).split("\n")

    def remember(self, text: str) -> None:
        if (self.history.new or self.history.old or [""])[-1] != text:
            self.remembered.append_string(text)

    def keep(self) -> None:
        self.history.keep()
