"""The lines that a person types, with history and completion: by prompt_toolkit where it is installed, else by readline."""
from __future__ import annotations

import os, sys
from collections.abc import Iterator

from .completion import DELIMITERS, Completer

try:
    import readline
except ImportError:
    readline = None

HISTORY_LENGTH = 2000
LINE_END = "\x01"  # that of a statement of several lines, in the file of the history: as psql has it
PROMPTS = {"": "   -> ", "'": "   '> ", '"': '   "> '}


class History:
    """The statements that were typed, the oldest first, in a file for its user alone. A file that cannot be read or written is passed
    over."""

    def __init__(self) -> None:
        self.path = os.environ.get("FEDQ_HISTORY") or os.path.expanduser("~/.fedq_history")
        self.new = []
        try:
            with open(self.path, encoding="utf-8", errors="replace", newline="\n") as file:
                lines = file.read().split("\n")
        except OSError:
            lines = []
        self.old = [it.replace(LINE_END, "\n") for it in lines if it.strip()][-HISTORY_LENGTH:]

    def add(self, text: str) -> bool:
        """Takes a statement in; whether it is another one than the last."""
        last = (self.new or self.old or [""])[-1]
        is_new = bool(text.strip()) and text != last
        self.new += [text] if is_new else []
        return is_new

    def keep(self) -> None:
        """Adds what is new to the file."""
        try:
            number = os.open(self.path, os.O_CREAT | os.O_WRONLY | os.O_APPEND, 0o600)
            with open(number, "w", encoding="utf-8", errors="replace", newline="\n") as file:
                file.writelines(it.replace("\n", LINE_END) + "\n" for it in self.new)
        except OSError:
            pass


class Plain:
    """Lines as they come, where nothing edits them."""

    def next(self, reader: object) -> list[str]:
        """The lines that were typed next: one, or several where they were pasted or brought back. Raises EOFError at the end."""
        sys.stderr.write(prompt_of(reader))
        sys.stderr.flush()
        line = sys.stdin.readline()
        if not line:
            raise EOFError
        return [line.rstrip("\r\n")]

    def remember(self, text: str) -> None:
        """Takes a statement into the history."""

    def keep(self) -> None:
        """Writes the history down."""


class ReadlineLines(Plain):
    """Lines by readline. Its history has whole statements."""

    def __init__(self, completer: Completer, history: History) -> None:
        self.completer, self.history, self.before, self.found = completer, history, "", []
        readline.set_completer(self.complete)
        readline.set_completer_delims(DELIMITERS)
        readline.parse_and_bind("bind ^I rl_complete" if "libedit" in (readline.__doc__ or "") else "tab: complete")
        readline.set_history_length(HISTORY_LENGTH)
        readline.set_auto_history(False)
        for it in history.old:
            readline.add_history(it)

    def next(self, reader: object) -> list[str]:
        self.before = reader.text
        return input(prompt_of(reader)).split("\n")

    def complete(self, text: str, number: int) -> str | None:
        """The number-th way to go on after `text`, or None: what readline calls."""
        if number == 0:
            line, begin = readline.get_line_buffer(), readline.get_begidx()
            is_command = line.lstrip().startswith("\\") or not self.before
            before = line[:begin] if is_command else f"{self.before}\n{line[:begin]}"
            self.found = self.completer.ways(text, before, f"{self.before}\n{line}")
        return self.found[number] if number < len(self.found) else None

    def remember(self, text: str) -> None:
        if self.history.add(text):
            readline.add_history(text)

    def keep(self) -> None:
        self.history.keep()


def prompt_of(reader: object) -> str:
    """The prompt for the next line: it shows whether a statement or a quote is open."""
    return PROMPTS[reader.quote] if reader.is_inside else "fedq> "


def toolkit_folders() -> Iterator[str]:
    """The folders in which Python's packages are installed: the shell is started without them."""
    import site
    version = f"python{sys.version_info[0]}.{sys.version_info[1]}"
    yield os.path.join(os.path.dirname(os.path.dirname(sys.executable)), "lib", version, "site-packages")
    yield from site.getsitepackages()
    yield site.getusersitepackages()


def has_toolkit() -> bool:
    """Whether prompt_toolkit is there; its folder is then among those of Python."""
    import importlib.util
    if importlib.util.find_spec("prompt_toolkit"):
        return True
    folder = next((it for it in toolkit_folders() if os.path.isdir(os.path.join(it, "prompt_toolkit"))), None)
    if folder:
        sys.path.append(folder)
    return bool(folder)


def lines_for(completer: Completer) -> Plain:
    """What reads a person's lines. FEDQ_LINES may choose: prompt_toolkit, readline or plain."""
    wanted = os.environ.get("FEDQ_LINES", "prompt_toolkit")
    if wanted == "plain" or not (sys.stdin.isatty() and sys.stdout.isatty()):
        return Plain()
    if wanted == "prompt_toolkit" and os.environ.get("TERM", "dumb") != "dumb" and has_toolkit():
        try:
            from .toolkit import ToolkitLines
            return ToolkitLines(completer, History())
        except ImportError:
            pass
    return ReadlineLines(completer, History()) if readline else Plain()
