"""What is said of a file: faults, warnings, and the commands that are the way out. A command is safe to paste, whatever a name in it
holds."""
import json, os, re, sys
from typing import List, Optional, Sequence, Set, TextIO

from ..sql import RESERVED
from ..terminal import path_word, printable

MOST_SAID = 20
WARNING, NOTICE = "warning: ", "note: "  # that such lines begin with
NUL = "\U000fffff"  # (older readers of Python's csv take no U+0000)


class Refused(Exception):
    """A file cannot be bound: why, and at which line. `by_copy` is whether `--copy` makes a copy that can be bound."""

    def __init__(self, why: str, line: Optional[int] = None, by_copy: bool = False) -> None:
        super().__init__(why)
        self.why, self.line, self.by_copy = why, line, by_copy


class Report:
    """What is said of one file: faults, for which it cannot be bound, and warnings. `notes` are columns, each with its kind of
    `fedq.notes`; `notices` are what does no harm; `unbound` are members that no column reads, and
    `taken_out` is the fault of the tables that `--copy` takes out; `by_copy` is whether `--copy` makes more of it; `source` are the arguments
    that name its source; `open_quote` is the line of a quote that is never closed."""

    def __init__(self, name: str) -> None:
        self.name, self.faults, self.warnings, self.notices, self.notes = name, [], [], [], []  # type: str, list, list, list, list
        self.unbound, self.taken_out, self.by_copy = [], "", False  # type: List[str], str, bool
        self.source, self.open_quote = "", None  # type: str, Optional[int]

    def place(self, line: Optional[int]) -> str:
        """The file's name, and the line where there is one."""
        return f"{self.name} line {line}" if line else self.name

    def fault(self, text: str, line: Optional[int] = None) -> None:
        """Adds why the file cannot be bound."""
        self.faults.append(self.place(line) + text)

    def warn(self, text: str, line: Optional[int] = None) -> None:
        """Adds what may surprise."""
        self.warnings.append(WARNING + self.place(line) + text)

    def notice(self, text: str) -> None:
        """Adds what is good to know, and gives no wrong answer."""
        self.notices.append(NOTICE + self.name + text)

    def leave_out(self, text: str, line: Optional[int] = None, out: str = "") -> None:
        """Adds what is not bound, and the way out."""
        self.warnings.append(self.place(line) + text + ": left out" + (f": {out}" if out else ""))

    def lines(self) -> List[str]:
        """All that is said, a line each, for `say`: the first faults, how many more there are, the warnings, and the notices."""
        more = len(self.faults) - MOST_SAID
        return self.faults[:MOST_SAID] + ([f"{self.name}: and {more} more"] if more > 0 else []) + self.warnings + self.notices


def say(text: str, stream: Optional[TextIO] = None) -> None:
    """Prints one line, on standard error where no stream is given. Nothing else of fedq-setup prints what a file or a word holds."""
    print(printable(text), file=stream or sys.stderr)


def shown(text: str) -> str:
    """A cell as it is shown: in quotes, short, on one line."""
    text = text.replace(NUL, "\0")
    return repr(text if len(text) <= 40 else text[:37] + "..")


def listed(parts: Sequence[str], most: int = 8) -> str:
    """The first of these with commas between, and how many more there are."""
    return ", ".join(parts[:most]) + (f" and {len(parts) - most} more" if len(parts) > most else "")


def plain_name(text: str, place: int) -> str:
    """A name for SQL made of a heading, a member or a file's name: lower case, `_` for what is no letter or digit, at most 63 bytes."""
    name = re.sub(r"[^\w]+", "_", text.strip().lower()).strip("_") or f"c{place}"
    name = "_" + name if name[0].isdigit() else name
    return name.encode()[:63].decode(errors="ignore")


def source_name(text: str) -> str:
    """A name for a source, which is no reserved word, of letters and digits of ASCII."""
    name = plain_name(text, 1)[:60]
    return f"{name}_1" if name in RESERVED | {"public"} else name


def own_name(name: str, taken: Set[str]) -> str:
    """The name, or with a number after it where it is taken; it is taken then."""
    number, own = 1, name
    while own in taken:
        number += 1
        own = name.encode()[:60].decode(errors="ignore") + f"_{number}"
    taken.add(own)
    return own


def plain_stem(path: str, other: str) -> str:
    """The name of a file up to its first dot, without the dot of a hidden file, in letters of ASCII, digits, `_` and `-`; `other` where
    that is nothing."""
    return re.sub(r"[^A-Za-z0-9_-]+", "_", os.path.basename(path).lstrip(".").split(".")[0]).strip("_") or other


# ---------------------------------------------------------------------------------------- parts of commands

def beside(path: str, end: str) -> str:
    """A name beside a path, for what a command writes, as a word of a command."""
    return path_word(os.path.join(os.path.dirname(path), plain_stem(path, "table") + end))


def json_text(text: str) -> str:
    """A text as a program of jq has it, in ASCII."""
    return json.dumps(text).replace("\x7f", "\\u007f")


def python_text(text: str) -> str:
    """A text as a program of Python has it, in double quotes, in characters that a terminal may show."""
    return '"' + printable(repr('"' + text)[2:-1]).replace('"', '\\"') + '"'
