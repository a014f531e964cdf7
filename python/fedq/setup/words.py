"""The arguments with which fedq-setup is started."""
import argparse, gc, os, sys
from typing import Dict, List, Tuple

from ..terminal import folder_word, path_word
from .advice import WARNING, Refused, say
from .check import check
from .set_up import set_up, set_up_copies, sources_of

USAGE = """usage: fedq-setup [--csv NAME=FOLDER].. [--jsonl NAME=FOLDER].. [--sqlite NAME=FILE].. [--out FILE] [--write] [--write-acl]
           [--copy FOLDER]
       fedq-setup --check csv|jsonl|sqlite FOLDER FILE --columns "name type, .." [--header true] [--null TEXT] [--members "a, b"]

Looks at folders of CSV files, of JSON lines, and at SQLite databases, and writes an init file for `fedq run` and `fedq-shell`: a table for
each file, its columns' names from the header, their types from all cells, and a mapping for everybody, to read; with --write to write too.
What cannot be bound, and what may surprise, is printed on standard error, with file, line and reason.
The status is 1 where something could not be bound, 2 where the arguments are wrong.

fedq cannot see access control lists, so a write may widen who reads a file that has one: --write reports each, and binds the tables of its
source for reading alone; --write-acl binds them for writing all the same.

--copy FOLDER makes plain copies of the sources in FOLDER, those anew whose source was changed since, and binds the copies: CSV with commas
in UTF-8, a JSON object a line with members a_b for objects, whole numbers for decimals (price_x100) and for numbers with a unit (way_km),
a month beside a date, and tables of databases that cannot be bound. FOLDER/fedq-copies.json says what was done. The sources stay as they
are. Prints the arguments to start with; the init file is written where --out is given.

--check prints on standard output why a CREATE FOREIGN TABLE over FILE is refused, a line for each fault, and ends with 1 where
there is one. For a database FOLDER is the database, and FILE its table."""


def usage_fault(said: str) -> int:
    """Prints what is wrong with the arguments; the exit status."""
    for line in (f"fedq-setup: {said}", USAGE.splitlines()[0], "fedq-setup --help has more"):
        say(line)
    return 2


class Words(argparse.ArgumentParser):
    """Reads arguments; what is wrong with them ends the program."""

    def error(self, message: str) -> None:
        """Ends the program with status 2."""
        sys.exit(usage_fault(message))


def texts_of(given: List[str]) -> Tuple[Dict[str, str], List[str]]:
    """The texts after --columns, --members and --null, which may begin with dashes, and the other arguments."""
    texts, rest, given = {"columns": None, "members": None, "null": "\\N"}, [], iter(given)
    for word in given:
        name, mark, text = word.partition("=")
        if name.startswith("--") and name[2:] in texts:
            texts[name[2:]] = text if mark else next(given, "")
        else:
            rest.append(word)
    return texts, rest


def write_script(words: argparse.Namespace) -> int:
    """Writes the init file, and prints what there is to say; the exit status."""
    try:
        sources = sources_of(vars(words))
    except ValueError as fault:
        return usage_fault(str(fault))
    made = set_up(sources, words.write, words.write_acl)
    made.writer.write(words.out)
    for line in made.warnings:
        say(line)
    hint = "; --copy FOLDER makes plain copies, with whole numbers of decimals and lines of JSON" if made.by_copy else ""
    say(f"fedq-setup: {counted(len(made.tables), 'table', 'tables')}" + (f" in {words.out}" if words.out else "") + hint)
    return int(made.failed)


def counted(count: int, one: str, more: str) -> str:
    """A count of things, as it is said."""
    return f"{count:,} {one if count == 1 else more}"


def copy_sources(words: argparse.Namespace) -> int:
    """Makes the copies and writes their init file, and prints what there is to say; the exit status."""
    try:
        copies, sources, made = set_up_copies(sources_of(vars(words)), words.copy, words.write, words.write_acl)
    except ValueError as fault:
        return usage_fault(str(fault))
    except Refused as refused:
        say(words.copy + refused.why)
        return 1
    if words.out:
        made.writer.write(words.out)
    for report in copies.reports:
        for line in report.lines():
            say(line)
    for line in made.warnings:
        if line.startswith(WARNING) or made.failed:
            say(line)
    start = " ".join(f"--{kind} {name}={folder_word(os.fspath(path))}" for kind, named in sources.items() for name, path in named.items())
    init = f" --init {path_word(words.out)}" if words.out else ""
    count = f"{counted(copies.anew + copies.kept, 'copy', 'copies')} in {words.copy}, {copies.anew:,} of them new"
    say(f"fedq-setup: {count}; {counted(len(made.tables), 'table', 'tables')}" + (f": fedq-shell {start}{init}" if start else ""))
    return int(made.failed or any(it.faults for it in copies.reports))


def read(given: List[str]) -> argparse.Namespace:
    """What the arguments say."""
    parser = Words(prog="fedq-setup", add_help=False, allow_abbrev=False)
    for word in ("--csv", "--jsonl", "--sqlite"):
        parser.add_argument(word, action="append", default=[])
    for word in ("--out", "--header", "--copy"):
        parser.add_argument(word)
    parser.add_argument("--check", nargs=3)
    for word in ("--write", "--write-acl"):
        parser.add_argument(word, action="store_true")
    parser.add_argument("-h", "--help", action="store_true")
    texts, rest = texts_of(given)
    return parser.parse_args(rest, argparse.Namespace(**texts))


def main(given: List[str]) -> int:
    """Does what the arguments say; the exit status."""
    words = read(given)
    sys.stdout.reconfigure(errors="backslashreplace")
    if words.help:
        print(USAGE)
        return 0
    if words.check:
        return check(words, usage_fault)
    if not words.csv + words.jsonl + words.sqlite:
        return usage_fault("name a folder or a database")
    return write_script(words) if words.copy is None else copy_sources(words)


def start(given: List[str]) -> int:
    """Runs fedq-setup as a program of its own: faults of the system are printed, too; the exit status."""
    gc.disable()  # (of a million rows each pass over all of them costs seconds, and nothing here is a cycle)
    try:
        return main(given)
    except BrokenPipeError:
        os._exit(1)
    except OSError as error:
        say(f"fedq-setup: {error.strerror}: {error.filename}")
        return 1
