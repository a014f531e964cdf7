"""The arguments with which the shell was started: its own, and those that go to `fedq run`."""
from __future__ import annotations

import os
from collections.abc import Iterator

# How rows are shown.
FORMATS = ("aligned", "csv", "json", "jsonl", "tsv", "markdown")
ENDINGS = {".csv": "csv", ".tsv": "tsv", ".json": "json", ".jsonl": "jsonl", ".md": "markdown"}  # (of a file to which rows are written)
OTHER_FORMATS = set("table text tab md html latex xml yaml ndjson excel xlsx parquet arrow unaligned".split())  # (of other tools)
# The options of `fedq run` that add a source.
SOURCES = {"--list": "list", "--csv": "csv", "--jsonl": "jsonl", "--sqlite": "sqlite"}
USAGE = """Usage: fedq-shell [the options of fedq run] [its own]

Reads SQL, each statement up to its semicolon, and prints what it answers. The options of `fedq run` name the sources:
  --list NAME, --csv NAME=FOLDER, --jsonl NAME=FOLDER, --sqlite NAME=FILE
                        without --init a table is made of each file, which is called as the file is;
                        NAME=FOLDER/FILE makes one table alone, which is called NAME
  --init FILE           runs the statements of FILE first, as the owner: over several lines, with -- comments
  --owner NAME          who may create and drop objects, by default admin
Its own:
  -c, --command SQL     runs SQL (or a \\ command), and ends; may be repeated
  -f, --file FILE       runs the statements of FILE, and ends; may be repeated, in the order with -c
      --stop            ends at the first refused statement of -c, -f or standard input
      --user NAME       whose session it is; else FEDQ_USER, else the owner
      --connect PORT    speaks to an engine that `fedq serve --port PORT` serves, in place of one of its own
      --save FILE       writes what made the tables to FILE, for the next --init FILE
      --no-setup        makes no tables; so it is too where the statements begin with CREATE or DROP
  -o, --format FORMAT   aligned (by default), csv, tsv, markdown, json (an array of objects),
                        or jsonl (one object a line)
  -x, --expanded        one line for each field of a row
      --null TEXT       what is shown for NULL in tables, by default \u2205
  -o, --output FILE     writes rows to FILE, without a format as its name ends (.csv, .json ..);
                        `-o csv` is a format, `-o ./csv` a file
  -V, --version         the version of fedq
  -h, --help            this text

At its prompt \\? lists its commands. Its status is 1 where a statement of -c, -f or standard input was refused.
FEDQ_PROGRAM names another program than ./fedq, FEDQ_HISTORY another file than ~/.fedq_history, PAGER what shows long tables,
EDITOR what \\e starts, FEDQ_LINES what reads lines: prompt_toolkit where it is installed, else readline; or plain.
"""


class BadWords(Exception):
    """The arguments are wrong; the text says which."""


class Words:
    """What the arguments say. Each of `sources` is (kind, name, path), each of `inputs` ("-c", SQL) or ("-f", FILE). Where a source is one file
    of its folder `files` has the name of this file."""
    owner, user, output, port, format, null, save = "admin", "", "", 0, "", "\u2205", ""
    is_expanded = stops = asks_help = asks_version = makes_no_tables = False

    def __init__(self) -> None:
        self.program_words, self.sources, self.inits, self.inputs, self.files = [], [], [], [], {}

    def leave_out(self, databases: set[str]) -> None:
        """Leaves these databases out of the sources and of the arguments for the program, so that it does not open them."""
        words, kept = iter(self.program_words), []
        for word in words:
            value = next(words) if word in TAKES_VALUE else None
            if word != "--sqlite" or value.partition("=")[0] not in databases:
                kept += [word] if value is None else [word, value]
        self.program_words = kept
        self.sources = [it for it in self.sources if it[0] != "sqlite" or it[1] not in databases]


def port_of(text: str) -> int:
    """The port that a text names."""
    if not text.isdigit() or not 1 <= int(text) <= 65535:
        raise BadWords(f"a port is 1 to 65535: {text}")
    return int(text)


def format_of(text: str) -> str:
    """The format that a text names."""
    if text not in FORMATS:
        raise BadWords(f"a format is {', '.join(FORMATS)}: {text}")
    return text


# The shell's own options with a value: the member that takes it, and what reads it.
WITH_VALUE = {"--user": ("user", str), "--connect": ("port", port_of), "--format": ("format", format_of), "--null": ("null", str),
              "--output": ("output", str), "--save": ("save", str)}
FLAGS = {"-h": "asks_help", "--help": "asks_help", "-V": "asks_version", "--version": "asks_version", "-x": "is_expanded",
         "--expanded": "is_expanded", "--stop": "stops", "--no-setup": "makes_no_tables"}
INPUTS = {"-c": "-c", "--command": "-c", "-f": "-f", "--file": "-f"}
TAKES_VALUE = {*WITH_VALUE, *INPUTS, *SOURCES, "--init", "--owner", "-o"}


def options(given: list[str]) -> Iterator[tuple[str, str | None]]:
    """Each option with its value, None where it has none; `--option=value` is parted."""
    words = iter(given)
    for word in words:
        option, mark, value = word.partition("=")
        if mark and option.startswith("--"):
            yield option, value
        elif word in TAKES_VALUE:
            yield word, next(words, None)
        else:
            yield word, None


def take(words: Words, option: str, value: str | None) -> None:
    """Takes one option into `words`."""
    if option in TAKES_VALUE and value is None:
        raise BadWords(f"{option} needs a value")
    if option in FLAGS:
        setattr(words, FLAGS[option], True)
    elif option in WITH_VALUE:
        member, read = WITH_VALUE[option]
        setattr(words, member, read(value))
    elif option == "-o" and value in OTHER_FORMATS:
        raise BadWords(f"a format is {', '.join(FORMATS)}: {value}; a file of that name is -o ./{value}")
    elif option == "-o":
        take(words, "--format" if value in FORMATS else "--output", value)
    elif option in INPUTS:
        words.inputs.append((INPUTS[option], value))
    elif option == "--init":
        words.inits.append(value)
    elif option in ("run", "serve"):
        raise BadWords(f"{option} is a command of ./fedq; the shell starts `fedq run` itself, and --connect PORT speaks to `fedq serve`")
    else:
        for_program(words, option, value)


def for_program(words: Words, option: str, value: str | None) -> None:
    """Takes an option of `fedq run`, or one that nobody knows: the program is to say so."""
    if option == "--owner":
        words.owner = value
    elif option in SOURCES:
        name, _, path = value.partition("=")
        if SOURCES[option] in ("csv", "jsonl") and os.path.isfile(path):
            folder, words.files[name] = os.path.split(path)
            path = folder or "."
            value = f"{name}={path}"
        words.sources.append((SOURCES[option], name, path))
    words.program_words += [option] if value is None else [option, value]


def read(given: list[str]) -> Words:
    """What these arguments say; raises BadWords."""
    words = Words()
    for option, value in options(given):
        take(words, option, value)
    if words.port and (words.program_words or words.inits or words.save):
        raise BadWords("--connect takes no sources, no --owner, no --init and no --save: the served engine has its own")
    words.format = words.format or ENDINGS.get(os.path.splitext(words.output)[1].lower(), FORMATS[0])
    words.user = words.user or os.environ.get("FEDQ_USER", "") or words.owner
    return words
