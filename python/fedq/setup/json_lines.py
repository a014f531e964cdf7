"""Files of JSON lines: their objects, their members, and what may surprise in them."""
import collections, difflib, json, re
from typing import Dict, Iterator, List, Optional, Tuple

from ..names import quoted_name
from ..sql import quoted_text
from ..terminal import path_word, shell_word
from .advice import Refused, Report, beside, json_text, listed, own_name, plain_name, shown
from .csv_cells import Column, is_integer
from .csv_files import MOST_COLUMNS, MOST_ROWS, column_notes, written_twice
from .files import content, packed


MOST_PARTS = 8  # of the program of jq that is advised


class Number(str):
    """A number of JSON that is no integer for the program, as it is written."""


def whole(text: str) -> "int | Number":
    """The number of a text of digits; fails with ValueError where it is too large for any."""
    if len(text) < 19 and text != "-0":
        return int(text)
    if abs(float(text)) == float("inf"):
        raise ValueError("a number is too large")
    return int(text) if text != "-0" and is_integer(text) else Number(text)


def real(text: str) -> Number:
    """The number of a text with a point or an exponent; fails with ValueError where it is too large for any."""
    if abs(float(text)) == float("inf"):
        raise ValueError("a number is too large")
    return Number(text)


def no_number(text: str) -> None:
    """Refuses NaN and Infinity."""
    raise ValueError(f"{text} is no JSON")


HIGH, LOW = (rf"\\u[dD][{it}][0-9a-fA-F]{{2}}" for it in ("89abAB", "c-fC-F"))
HALF = re.compile(f"{HIGH}(?!{LOW})|(?<!{HIGH}){LOW}")


class Twice(dict):
    """An object that has a member more than once; the last counts. `member` is the first such member."""
    member = ""


def members(pairs: List[Tuple[str, object]]) -> dict:
    """The object of its members, in their order."""
    found = dict(pairs)
    if len(found) == len(pairs):
        return found
    made, seen = Twice(found), set()  # type: Twice, set
    made.member = next(name for name, _ in pairs if name in seen or seen.add(name))
    return made


DECODER = json.JSONDecoder(parse_int=whole, parse_float=real, parse_constant=no_number, object_pairs_hook=members)


def depth(value: object) -> int:
    """How deep arrays and objects are nested."""
    inner = value.values() if isinstance(value, dict) else value if isinstance(value, list) else None
    return 0 if inner is None else 1 + max(map(depth, inner), default=0)


def parsed(path: str, raw: bytes, number: int) -> dict:
    """The object of a line; refused where the program refuses it, with the way out."""
    file, out = path_word(path), beside(path, "_lines.jsonl")
    try:
        line = raw.decode()
    except UnicodeDecodeError:
        raise Refused(f" is not UTF-8: iconv -f latin1 -t utf-8 {file} > {beside(path, '_utf8.jsonl')}", number, by_copy=True) from None
    if line[:1] == "\ufeff":
        raise Refused(f" begins with a byte order mark: tail -c +4 {file} > {out}", number, by_copy=True)
    try:
        value = DECODER.decode(line)
        if HALF.search(line.replace("\\\\", "")):
            raise Refused(" has one half of a surrogate pair (\\ud800 .. \\udfff)", number)
        if line.count("[") + line.count("{") > 127 and depth(value) > 127:
            raise RecursionError
    except RecursionError:
        raise Refused(" is nested more than 127 deep", number) from None
    except ValueError as error:
        why = no_json(line, error, file, out)
        raise Refused(why, number, by_copy=": jq " in why) from None
    if isinstance(value, list):
        raise Refused(f" is an array, no object: jq -c '.[]' {file} > {out}", number, by_copy=True)
    if not isinstance(value, dict):
        raise Refused(" is no object", number)
    return value


def no_json(line: str, error: ValueError, file: str, out: str) -> str:
    """Why a line is no JSON object, and the way out."""
    if "is no JSON" in str(error) or "too large" in str(error):
        return f": {error}" + (f": jq -c . {file} > {out} writes null" if "NaN" in str(error) else "")
    if getattr(error, "msg", "") == "Extra data":
        return f" has more than one value: jq -c . {file} > {out}"
    if line.strip(" \t\r") == "[" or line.lstrip(" \t").startswith("[") and line.rstrip(" \t\r").endswith(","):
        return f" begins an array over several lines: jq -c '.[]' {file} > {out}"
    if line.strip(" \t\r") == "{" or line.lstrip(" \t").startswith("{") and line.rstrip(" \t\r").endswith((",", "{", "[")):
        return f" begins an object over several lines: jq -c . {file} > {out}"
    return f" is no JSON object: {getattr(error, 'msg', error)} at character {getattr(error, 'pos', 0) + 1}"


def member_kind(value: object) -> str:
    """What a member holds, by the program's rules."""
    if value is None:
        return "null"
    if isinstance(value, Number):
        return "a decimal" if set(value) & set(".eE") or value == "-0" else "a number beyond the largest integer"
    for kind, name in ((bool, "boolean"), (int, "integer"), (list, "an array"), (dict, "an object")):
        if isinstance(value, kind):
            return name
    return "a text with U+0000" if "\0" in value else "text"


def read_lines(path: str) -> Iterator[Tuple[int, dict]]:
    """The number of each line of a file of JSON lines that is not blank, and its object."""
    raw = content(path)
    packed(path, raw)
    count = 0
    for number, line in enumerate(raw.split(b"\n"), 1):
        if line.strip(b" \t\r"):
            count += 1
            if count > MOST_ROWS:
                raise Refused(f" is row {count:,}, and {MOST_ROWS:,} can be read: split -l {MOST_ROWS}", number)
            yield number, parsed(path, line, number)


def path_of(member: str) -> str:
    """A member as a program of jq names it."""
    return f".{member}" if re.fullmatch(r"[A-Za-z_]\w*", member, re.ASCII) else f".[{json_text(member)}]"


def jq(program: str) -> str:
    """The command that runs a program of jq over standard input."""
    return f"jq -c {shell_word(program)}"


def left_out(member: str, seen: dict) -> Tuple[str, int, str]:
    """Why no column can read a member, the line that shows it, and the part of a program of jq that is the way out, if there is one."""
    way, one = path_of(member), [it for it in seen if it not in ("null", "text", "integer", "boolean")]
    said = {"text": "a text", "integer": "a number", "boolean": "a boolean"}
    as_text = f"{way} |= if . == null then . else tostring end"
    if not one:
        old, new = sorted((it for it in seen if it != "null"), key=seen.get)[:2]
        return f"{member} is {said[new]}, and {said[old]} in line {seen[old]}", seen[new], as_text
    kind = min(one, key=seen.get)
    if kind == "a text with U+0000":
        return f"{member} has U+0000", seen[kind], ""
    return f"{member} is {kind}", seen[kind], f"{way} |= tojson" if kind in ("an array", "an object") else as_text


def say_left_out(report: Report, path: str, found: List[Tuple[str, int, str]], misled: str, calm: str) -> None:
    """Says in one line which members no column can read, the command that makes texts of them, and what may mislead in the columns."""
    if not found and misled:
        report.warn(f": {misled}")
    elif not found and calm:
        report.notice(f": {calm}")
    if not found:
        return
    said = [f"{what} (line {line})" for what, line, _ in found]
    program = " | ".join(part for _, _, part in found[:MOST_PARTS] if part)
    out = f"{jq(program)} {path_word(path)} > {beside(path, '_text.jsonl')}" if program else ""
    report.by_copy = True
    report.leave_out((f": {misled}; " if misled else ": ") + listed(said), out=out)


def likely(report: Report, counts: dict, firsts: dict, rows: int) -> None:
    """Warns of a member that few lines have, and whose name is nearly that of another."""
    for member, count in counts.items():
        others = [it for it in counts if it != member and counts[it] > count]
        near = [it for it in others if it.lower() == member.lower()] or difflib.get_close_matches(member, others, 1, 0.74)
        if near and counts[member] + counts[near[0]] <= rows:
            report.warn(f": {member} is in {count} of {rows} lines, where {near[0]} is not: is it meant?", firsts[member])


def say_twice(report: Report, twice: Dict[str, int], is_row: bool = False) -> None:
    """Warns of members that an object has more than once, each with its first line, or with `is_row` its first row."""
    if twice:
        first, said = min(twice.values()), f" has {listed([*map(shown, twice)])} more than once in one object: the last counts"
        report.warn(f": row {first}{said}" if is_row else said, None if is_row else first)


class Texts:
    """The texts of a member, looked at 1,000 at a time."""

    def __init__(self) -> None:
        self.seen, self.texts, self.lines = Column(), [], []  # type: Column, List[str], List[int]

    def take(self, text: str, line: int) -> None:
        """Takes a text in, with its line."""
        self.texts.append(text)
        self.lines.append(line)
        if len(self.texts) == 1000:
            self.column()

    def column(self) -> Column:
        """What the texts look like."""
        if self.texts:
            self.seen.see(self.texts, self.lines)
        self.texts, self.lines = [], []
        return self.seen


def see_twice(path: str, member: str, column: Column) -> None:
    """Looks in a file for two texts of a member that are one number, where the texts are decimals."""
    if column.is_decimal():
        column.twice = written_twice(it[member] for _, it in read_lines(path) if isinstance(it.get(member), str))


def bind_jsonl(path: str, report: Report) -> Optional[Tuple[list, str]]:
    """The columns of a file of JSON lines, as they are declared, and no further options; None where it cannot be bound."""
    kinds, counts, firsts, rows, looks, twice = {}, collections.Counter(), {}, 0, {}, {}
    for number, value in read_lines(path):
        rows += 1
        if isinstance(value, Twice):
            twice.setdefault(value.member, number)
        for member, inner in value.items():
            if type(inner) is str:
                looks.setdefault(member, Texts()).take(inner, number)
            kinds.setdefault(member, {}).setdefault(member_kind(inner), number)
            counts[member] += 1
            firsts.setdefault(member, number)
    if not rows:
        raise Refused(" has no line with an object")
    say_twice(report, twice)
    columns, taken, out_left, texts = [], set(), [], []
    for member, seen in kinds.items():
        own, before = [it for it in seen if it != "null"], len(columns)
        if own not in ([], ["text"], ["integer"], ["boolean"]):
            out_left.append(left_out(member, seen))
        elif re.search(r"[\n\r\0]", member) or len(member.encode()) > 8192:
            report.leave_out(f": the member {shown(member)} cannot be named in a statement", firsts[member])
        elif len(columns) == MOST_COLUMNS:
            report.leave_out(f": {member} would be column {MOST_COLUMNS + 1}, and a table has at most {MOST_COLUMNS}", firsts[member])
        else:
            name = own_name(plain_name(member, len(columns) + 1), taken)
            option = "" if name == member else f" OPTIONS (member {quoted_text(member)})"
            columns.append(f"{quoted_name(name)} {own[0] if own else 'text'}{option}")
            if own == ["text"] and looks[member].column().kinds() - {"bit", "integer", "boolean"}:
                texts.append((name, looks[member].column()))
                see_twice(path, member, texts[-1][1])
        if len(columns) == before:
            report.unbound.append(member)
    say_left_out(report, path, out_left, *column_notes(report, texts, "", ""))
    likely(report, counts, firsts, rows)
    if not columns:
        raise Refused(" has no member that a column can read")
    return columns, ""
