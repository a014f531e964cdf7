"""--check: why a foreign table over a file, or over a table of a database, is refused."""
import collections, difflib, json, os, sys
from typing import Callable, Dict, List, Optional, Tuple

from ..sql import Unsayable, quoted_text, tokens
from .advice import NUL, Refused, Report, plain_name, say, shown
from .csv_cells import is_boolean, is_integer, kind_of
from .csv_files import MOST_ROWS, read_csv, widths
from .databases import SHAPES, UNREAD, check_shape, opened, recipe, unsound
from .files import is_blob_name
from .json_lines import Number, Twice, member_kind, read_lines, say_twice
from .script import guarded

TYPES = {**dict.fromkeys(("smallint", "integer", "int", "bigint"), "integer"), "text": "text", "boolean": "boolean", "bool": "boolean"}


# What is said of a field that looks so, and is not of its type.
HINTS = {"whole": " (pandas writes one so beside missing values)", "decimal": ": a decimal; declare it as text",
         "large": ": beyond the largest"}


def declared(text: str) -> List[Tuple[str, str, Optional[str]]]:
    """The columns of the text between the parentheses of CREATE FOREIGN TABLE: name, type, and member or None. Fails with Unsayable where
    it is no SQL."""
    parts, depth_now = [[]], 0
    for token in tokens(text):
        depth_now += (token.raw == "(") - (token.raw == ")")
        if token.raw == "," and depth_now == 0:
            parts.append([])
        else:
            parts[-1].append(token)
    columns = []
    for part in (it for it in parts if len(it) > 1):
        at = [place for place, it in enumerate(part[:-1]) if it.kind == "word" and it.value == "member"]
        member = part[at[0] + 1].value if at else None
        columns.append((part[0].value, TYPES.get(part[1].value, part[1].raw), member))
    return columns


def order_notes(report: Report, columns: list, first: List[str], header: bool) -> None:
    """Warns where the header is taken as a row, or names the columns in another order."""
    names, heads = [it[0] for it in columns], [plain_name(it, place) for place, it in enumerate(first, 1)]
    plain = [plain_name(it, place) for place, it in enumerate(names, 1)]
    if header and heads != plain and set(heads) & set(plain):
        moved = next((it for at, it in enumerate(plain) if it in heads and heads.index(it) != at), None)
        if moved:
            said = f"the header says {', '.join(first)}, and the columns are declared as {', '.join(names)}"
            report.warn(f": {said}: they are read by position", 1)
    elif not header and len(set(heads) & set(plain)) * 2 > len(plain):
        report.warn(f" is a header ({', '.join(first)}), and is read as a row: OPTIONS (.. header 'true')", 1)


def field_fault(kind: str, text: str) -> Optional[str]:
    """Why a field is not of its type; nothing where it is."""
    if NUL in text:
        return "has U+0000"
    if kind == "text" or text == "" or (is_integer if kind == "integer" else is_boolean)(text):
        return None
    look = kind_of(text)
    hint = f": null {quoted_text(text)} reads it as NULL" if look == "null" else HINTS.get(look, "")
    return f"is no {kind}{hint}"


def check_csv(path: str, report: Report, columns: list, words: "argparse.Namespace") -> None:
    """Reports each fault of a CSV file under the columns; where it looks to be something else, that in their place."""
    found, other, _ = read_csv(path, report)
    if found:
        check_records(found, report, columns, words.header == "true", words.null)
    if other and report.faults:
        report.faults, report.warnings = [], []
        raise other
    if other:
        report.warn(other.why, other.line)


def check_records(found: list, report: Report, columns: list, header: bool, null: str) -> None:
    """Reports each fault of the records of a CSV file under the columns."""
    first = found[0][1]
    order_notes(report, columns, first, header)
    if {len(fields) for _, fields in found} == {len(first)} and len(first) != len(columns):
        count = f"{len(first)} field{'s' * (len(first) != 1)}"
        report.fault(f": each record has {count} ({', '.join(map(shown, first[:8]))}), and the table {len(columns)} columns", 1)
        return
    widths(report, found, len(columns), "the table")
    if len(found) - header > MOST_ROWS:
        report.fault(f" has {len(found) - header:,} rows, and {MOST_ROWS:,} can be read")
    for line, fields in found[header:]:
        for (name, kind, _), text in zip(columns, fields):
            why = None if text == null else field_fault(kind, text)
            if why:
                report.fault(f" column {name}: {shown(text)} {why}", line)


def check_jsonl(path: str, report: Report, columns: list, _words: "argparse.Namespace") -> None:
    """Reports each fault of a file of JSON lines under the columns."""
    wanted, counts, rows = {"integer": "integer", "text": "text", "boolean": "boolean"}, collections.Counter(), 0
    twice = {}  # type: Dict[str, int]
    for number, value in read_lines(path):
        rows += 1
        counts.update([*value])
        if isinstance(value, Twice):
            twice.setdefault(value.member, number)
        for name, kind, member in columns:
            own = member_kind(value.get(member or name))
            if own not in ("null", wanted[kind]):
                said = {"text": "a text", "integer": "a number", "boolean": "a boolean"}.get(own, own)
                inner = value[member or name]
                text = inner if isinstance(inner, Number) else json.dumps(inner, ensure_ascii=False)
                report.fault(f" column {name}: {shown(text)} is {said}, no {kind}", number)
    say_twice(report, twice)
    for name, _, member in columns:
        asked = member or name
        if rows and asked not in counts:
            near = [it for it in counts if it.lower() == asked.lower()] or difflib.get_close_matches(asked, list(counts), 1)
            hint = f"; {near[0]} is there: OPTIONS (member {quoted_text(near[0])})" if near and not set(near[0]) & set("\n\0") else ""
            report.warn(f": no line has the member {asked}, so column {name} is NULL everywhere{hint}")


def check_sqlite(path: str, report: Report, columns: list, words: "argparse.Namespace") -> None:
    """Reports each fault of a table of a database under the columns."""
    table = words.file
    if path != ":memory:":
        base = opened(path)
        try:
            unsound(base, path)
            check_table(base, path, table, report)
        finally:
            base.close()
    if table in SHAPES and tuple(it[1] for it in columns) != SHAPES[table][1]:
        report.fault(f" table {table} has columns of the types {', '.join(SHAPES[table][1])}, and the foreign table others")


def check_table(base: "sqlite3.Connection", path: str, table: str, report: Report) -> None:
    """Reports each fault of a table. Refused where it is of no shape that can be bound, with the way out."""
    try:
        if table not in SHAPES:
            raise Refused(UNREAD)
        check_shape(base, table, report)
    except Refused as refused:
        raise Refused(f" table {table} cannot be bound ({refused.why}): {recipe(path)}") from None


CHECKS = {"csv": check_csv, "jsonl": check_jsonl, "sqlite": check_sqlite}


def type_faults(report: Report, columns: List[Tuple[str, str, Optional[str]]]) -> bool:
    """Reports each column of a type that is not there; whether there is one."""
    others = [(name, type_) for name, type_, _ in columns if type_ not in TYPES.values()]
    for name, type_ in others:
        report.fault(f" column {name}: there is no type {type_}: integer, text and boolean are there; "
                     "what is neither number nor boolean is text")
    return bool(others)


def place_fault(folder: str, file: str) -> Optional[str]:
    """Why a file of a folder cannot be looked at; None where it can."""
    if not is_blob_name(file):
        return " has a name that fedq does not read (A-Z a-z 0-9 _ . -, no dot first): ln -s it to another"
    if os.path.lexists(os.path.join(folder, file)):
        return None
    names = os.listdir(folder) if os.path.isdir(folder) else []
    near = difflib.get_close_matches(file, names, 1)
    return " is not there" + (f"; {near[0]} is" if near else "" if os.path.isdir(folder) else f", nor is the folder {folder}")


def check(words: "argparse.Namespace", usage_fault: Callable[[str], int]) -> int:
    """Prints why a foreign table cannot be bound; the exit status. `usage_fault` prints what is wrong with the arguments, and returns the
    status of that."""
    kind, folder, words.file = words.check
    if kind not in CHECKS or words.columns is None:
        return usage_fault("--check takes csv, jsonl or sqlite, a folder and a file, and --columns")
    path = folder if kind == "sqlite" else os.path.join(folder, words.file)
    try:
        report, columns = Report(path), declared(words.columns)
    except Unsayable as fault:
        return usage_fault(f"--columns: {fault.args[1]}")
    members = [it.strip() for it in words.members.split(",")] if words.members else []
    columns = [(name, type_, (members[at] if at < len(members) else "") or member) for at, (name, type_, member) in enumerate(columns)]
    is_typed = not type_faults(report, columns)
    why = place_fault(folder, words.file) if kind != "sqlite" else None
    if why:
        report.fault(why)
    elif is_typed:
        guarded(lambda path, report: CHECKS[kind](path, report, columns, words), path, report)
    for line in report.lines():
        say(line, sys.stdout)
    return int(bool(report.faults))
