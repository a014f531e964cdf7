"""Copies of CSV files, of JSON and of tables of SQLite, as bytes that fedq reads."""
import gzip, io, json, re, zlib
from typing import Dict, Iterator, List, Optional, Tuple

from .advice import NUL, Refused, Report, listed, own_name, plain_name, shown
from .copy_cells import MOST_COLUMNS, Cells, improved
from .csv_cells import Column
from .csv_files import MOST_ROWS, SEPARATOR_LINE, ends_in_commas, has_header, heading_names, quoted_empty, quotes, ragged, records, \
    see_records, separator
from .files import MOST_BYTES, content, packed
from .json_lines import DECODER, HALF, Number, Twice, depth, member_kind, members, real, say_twice, whole

LINE_END = re.compile(r"[ \t\r]*(?:\n|\Z)")
NO_CELL = "\U000ffffe"  # (an empty cell without quotes, in a file that has such cells with quotes too)


class Made:
    """A copy: its bytes, what was done to the file, and its columns; no columns where the bytes are those of the source."""

    def __init__(self, raw: bytes, did: List[str], columns: List[Cells]) -> None:
        self.raw, self.did, self.columns = raw, did, columns


def unpacked(path: str, did: List[str]) -> str:
    """The text of a file, unpacked and decoded. Refused where it is none."""
    raw = content(path)
    if raw[:2] == b"\x1f\x8b":
        try:
            with gzip.GzipFile(fileobj=io.BytesIO(raw)) as file:
                raw = file.read(MOST_BYTES + 1)
        except (OSError, EOFError, zlib.error) as error:
            raise Refused(f" is damaged: {error}") from None
        if len(raw) > MOST_BYTES:
            raise Refused(f" has more than {MOST_BYTES:,} bytes when it is unpacked: split it (gunzip -c .. | split -l), a table each")
        did.append("unpacked")
    try:
        packed(path, raw)
        name = "utf-8"
        raw.decode()
    except Refused as refused:
        if "UTF-16" not in refused.why:
            raise
        name = "utf-16" if raw[:2] in (b"\xff\xfe", b"\xfe\xff") else "utf-16-le" if raw[1:2] == b"\0" else "utf-16-be"
    except UnicodeDecodeError:
        name = "cp1252" if re.search(rb"[\x80-\x9f]", raw) else "latin-1"
    try:
        text = raw.decode(name)
    except UnicodeDecodeError:
        raise Refused(f" is neither UTF-8 nor {name}: iconv -l lists encodings") from None
    if name != "utf-8":
        did.append(f"from {name}" + " (by its bytes: look at a letter with an accent)" * (name in ("cp1252", "latin-1")))
    return text[1:] if text[:1] == "\ufeff" else text


# ---------------------------------------------------------------------------------------- CSV

def marked(text: str, mark: str) -> str:
    """The text of a CSV file with NO_CELL for each empty cell without quotes; blank lines stay blank."""
    sign = re.escape(mark)
    field = re.compile(rf'("[^"]*(?:""[^"]*)*"[^{sign}\r\n]*|[^{sign}\r\n]*)({sign}|\r\n|\r|\n|$)')
    parts, before = [], "\n"
    for found in field.finditer(text):
        if found.start() == len(text) and before != mark:
            break
        is_cell = not found[1] and (before == mark or found[2] == mark)
        parts.append(NO_CELL + found[2] if is_cell else found[0])
        before = found[2]
    return "".join(parts)


def without_last(found: list) -> list:
    """The records, all but the first without their last field."""
    return [found[0], *((line, fields[:-1]) for line, fields in found[1:])]


def empty_cells(text: str, mark: str, found: list, did: List[str]) -> list:
    """The records with NO_CELL for each empty cell that is NULL: those without quotes where others are in quotes, and all where no cell
    is `\\N`."""
    if quoted_empty(text, mark) is not None and any("" in fields for _, fields in found):
        again = [*records(marked(text, mark).replace("\0", NUL), mark)]
        again = without_last(again) if len(again[-1][1]) > len(found[-1][1]) else again
        if [len(it) for _, it in again] == [len(it) for _, it in found]:
            if any(NO_CELL in fields for _, fields in again):
                did.append("NULL for empty cells without quotes, as others have quotes")
            return again
    if any("\\N" in fields for _, fields in found):
        return found
    return [(line, [it or NO_CELL for it in fields]) for line, fields in found]


def csv_columns(path: str, report: Report, did: List[str]) -> Tuple[List[Cells], bool]:
    """The columns of a CSV file, and whether anything but a plain copy is needed to read them."""
    text = unpacked(path, did)
    sign = SEPARATOR_LINE.match(text)
    if sign:
        text = "\n" + text[sign.end():]  # (so that lines keep their numbers)
        did.append(f"without its line {shown('sep=' + sign[1])}")
    mark, name = (sign[1], "its separator") if sign else separator(text)
    if mark != ",":
        did.append(f"commas for {name}")
    found = list(records(text.replace("\0", NUL), mark))
    if not found:
        raise Refused(" has no record")
    quotes(report, text, found[-1][0], mark)
    width = len(found[0][1])
    if ends_in_commas(found, [it for it in found if len(it[1]) != width], width):
        did.append("without the comma at the end of each row")
        found = without_last(found)
    if not ragged(report, found, path, mark, not any(it == "unpacked" or it.startswith(("from ", "without its line")) for it in did)):
        raise Refused("")
    columns = [Column() for _ in found[0][1]]
    see_records(columns, found[1:])
    quiet = Report(report.name)
    header = has_header(quiet, found[0][1], columns)
    names = heading_names(report, found[0][1]) if header else [f"c{at}" for at in range(1, width + 1)]
    if not header:
        did.append(f"a heading: {listed(names)}")
    if len(found) - header > MOST_ROWS:
        raise Refused(f" has {len(found) - header:,} rows, and {MOST_ROWS:,} can be read: split it (split -l), a table each")
    rows = [fields for _, fields in empty_cells(text, mark, found, did)[header:]]
    origins = found[0][1] if header else names
    made = [Cells(name, origin, [None if it in (NO_CELL, "\\N") else it for it in values])
            for name, origin, values in zip(names, origins, zip(*rows) if rows else [()] * width)]
    if width > MOST_COLUMNS:
        report.leave_out(f": {listed(names[MOST_COLUMNS:])}, as a table has at most {MOST_COLUMNS} columns")
        did.append(f"its first {MOST_COLUMNS} columns")
    return made[:MOST_COLUMNS], bool(did)


def csv_field(text: Optional[str], null: str) -> str:
    """A cell of a CSV file; the empty text is in quotes."""
    if text is None:
        return null
    return '"' + text.replace('"', '""') + '"' if text == "" or re.search(r'[",\r\n]', text) or text[0] == "\ufeff" else text


def csv_bytes(columns: List[Cells]) -> bytes:
    """A CSV file of columns. NULL is the empty cell, or `\\N` in columns of texts where some text is empty."""
    texts = [it for it in columns if it.kind == "text"]
    null = "\\N" if any("" in it.values for it in texts) else ""
    if any("\\N" in it.values for it in texts):
        raise Refused(" has the text \\N, which is NULL in a CSV file: change it")
    nulls = [null if it.kind == "text" else "" for it in columns]
    if len(columns) == 1:
        nulls = ["\\N"]
    lines = [",".join(csv_field(it.name, "") for it in columns)]
    lines += [",".join(map(csv_field, row, nulls)) for row in zip(*(it.values for it in columns))]
    raw = "".join(f"{it}\n" for it in lines).encode("utf-8", "surrogatepass")
    return fitting(raw)


def fitting(raw: bytes) -> bytes:
    """The bytes of a copy; refused where they are more than a file may have."""
    if len(raw) > MOST_BYTES:
        raise Refused(f" would be a copy of {len(raw):,} bytes, and {MOST_BYTES:,} can be read: split it (split -l), a table each")
    return raw


def copy_csv(path: str, report: Report) -> Made:
    """The copy of a CSV file."""
    did, before = [], len(report.warnings)  # type: List[str], int
    columns, _ = csv_columns(path, report, did)
    after = len(report.warnings)
    columns = improved(columns, report)
    if not did and not any(it.did for it in columns):
        del report.warnings[before:after]  # (they are said of the copy, which is the same)
        return Made(content(path), [], columns)
    return Made(csv_bytes(columns), did, columns)


# ---------------------------------------------------------------------------------------- JSON

def values_of(text: str, did: List[str]) -> Iterator[Tuple[int, object]]:
    """The values of a text of JSON, each with its number: those of lines, or of a text as a whole, with the elements of arrays."""
    nans = []  # type: List[str]
    decoder = json.JSONDecoder(parse_int=whole, parse_float=real, parse_constant=nans.append, object_pairs_hook=members)
    at, number, is_lines = 0, 0, True
    while True:
        at += len(text[at:at + 1_000_000]) - len(text[at:at + 1_000_000].lstrip(" \t\r\n,"))
        if at >= len(text):
            break
        try:
            value, end = decoder.raw_decode(text, at)
        except RecursionError:
            raise Refused(" is nested more than 127 deep") from None
        except ValueError as error:
            line = text.count("\n", 0, getattr(error, "pos", at)) + 1
            raise Refused(f" is no JSON: {getattr(error, 'msg', error)}", line) from None
        is_lines = is_lines and not isinstance(value, list) and "\n" not in text[at:end] and LINE_END.match(text, end) is not None
        for it in value if isinstance(value, list) else [value]:
            number += 1
            yield number, it
        at = end
    if not is_lines:
        did.append("one object a line")
    if nans:
        did.append(f"null for {listed(sorted(set(nans)))}")


def written(value: object) -> str:
    """A value as JSON, its numbers as they are written."""
    if isinstance(value, Number):
        return str.__str__(value)
    if isinstance(value, dict):
        return "{" + ",".join(f"{json.dumps(key, ensure_ascii=False)}:{written(it)}" for key, it in value.items()) + "}"
    if isinstance(value, list):
        return "[" + ",".join(map(written, value)) + "]"
    return json.dumps(value, ensure_ascii=False)


Path = Tuple[str, ...]


def kinds_below(value: dict, above: Path, kinds: Dict[Path, Dict[str, int]], row: int) -> None:
    """Adds what each member of an object holds, those of its objects too, with the first row."""
    for member, inner in value.items():
        path = (*above, member)
        kind = "an empty object" if inner == {} else member_kind(inner)
        kinds.setdefault(path, {}).setdefault(kind, row)
        if kind == "an object":
            kinds_below(inner, path, kinds, row)


def found_at(value: object, path: Path) -> object:
    """The value at a path of members; None where there is none."""
    for member in path:
        value = value.get(member) if isinstance(value, dict) else None
    return value


def leaves(kinds: Dict[Path, Dict[str, int]]) -> List[Path]:
    """The paths that become columns: an object that is one everywhere becomes those of its members."""
    split = {path for path, seen in kinds.items() if set(seen) <= {"an object", "null"} and "an object" in seen}
    return [path for path in kinds if path not in split and all(path[:end] in split for end in range(1, len(path)))]


def json_column(name: str, path: Path, seen: Dict[str, int], rows: List[dict], report: Report) -> Optional[Cells]:
    """A column of the members at a path; None where it is left out."""
    origin, own = ".".join(path), set(seen) - {"null"}
    if "a text with U+0000" in own:
        report.leave_out(f": {origin} has U+0000 in row {seen['a text with U+0000']}")
        return None
    values = [found_at(it, path) for it in rows]
    did = []  # type: List[str]
    if own and own <= {"integer"} or own == {"boolean"}:
        return Cells(name, origin, [None if it is None else written(it) for it in values], did, "plain")
    if own <= {"integer", "a decimal"} and own:
        return Cells(name, origin, [None if it is None else written(it) for it in values], did, "number")
    if own & {"an array", "an object", "an empty object"}:
        did.append("JSON as text")
        return Cells(name, origin, [None if it is None else written(it) for it in values], did, "json")
    if own - {"text"}:
        did.append("numbers, truth values and texts as text")
        named = (it if " " in it else f"{'an' if it == 'integer' else 'a'} {it}" for it in sorted(own))
        report.warn(f": {origin} has {' and '.join(named)}: as text in the copy")
        return Cells(name, origin, [None if it is None else it if isinstance(it, str) else written(it) for it in values], did, "json")
    return Cells(name, origin, values, did)


def json_rows(path: str, report: Report, did: List[str]) -> List[dict]:
    """The objects of a file of JSON. Refused where a value is no object."""
    text, rows = unpacked(path, did), []
    for row, value in values_of(text, did):
        if not isinstance(value, dict):
            raise Refused(f" has {written(value)[:40]} for row {row}, which is no object")
        if depth(value) > 127:
            raise Refused(" is nested more than 127 deep")
        if len(rows) == MOST_ROWS:
            raise Refused(f" has more than {MOST_ROWS:,} rows: split it (split -l), a table each")
        rows.append(value)
    if HALF.search(text.replace("\\\\", "")):
        raise Refused(" has one half of a surrogate pair (\\ud800 .. \\udfff)")
    if not rows:
        raise Refused(" has no object")
    return rows


def copy_jsonl(path: str, report: Report) -> Made:
    """The copy of a file of JSON."""
    did, kinds, taken = [], {}, set()  # type: List[str], Dict[Path, Dict[str, int]], set
    rows = json_rows(path, report, did)
    for row, value in enumerate(rows, 1):
        kinds_below(value, (), kinds, row)
    columns = []
    for at, path_ in enumerate(leaves(kinds)):
        wanted = plain_name("_".join(path_), at + 1)
        name = own_name(wanted, taken)
        if name != wanted:
            report.warn(f": {'.'.join(path_)} is called {name}, as another is {wanted}")
        made = json_column(name, path_, kinds[path_], rows, report)
        columns += [made] if made else []
    if len(columns) > MOST_COLUMNS:
        report.leave_out(f": {listed([it.origin for it in columns[MOST_COLUMNS:]])}, as a table has at most {MOST_COLUMNS} columns")
        did.append(f"its first {MOST_COLUMNS} members")
    columns = columns[:MOST_COLUMNS]
    is_flat = all(len(it) == 1 for it in leaves(kinds))
    for it in columns:
        it.kind = {"number": "text"}.get(it.kind, it.kind)
    columns = improved(columns, report, False)
    if not did and is_flat and not any(it.did for it in columns):
        return Made(content(path), [], columns)
    twice = {it.member: row for row, it in reversed([*enumerate(rows, 1)]) if isinstance(it, Twice)}  # (the copy has the last alone)
    say_twice(report, twice, is_row=True)
    return Made(json_bytes(columns), did, columns)


def json_bytes(columns: List[Cells]) -> bytes:
    """A file of JSON lines of columns."""
    keys = [json.dumps(it.name, ensure_ascii=False) for it in columns]
    plain = [it.kind in ("plain", "integer") for it in columns]
    lines = []
    for row in zip(*(it.values for it in columns)):
        cells = ("null" if it is None else it if is_plain else json.dumps(it, ensure_ascii=False) for it, is_plain in zip(row, plain))
        lines.append("{" + ",".join(f"{key}:{it}" for key, it in zip(keys, cells)) + "}\n")
    return fitting("".join(lines).encode())


COPIERS = {"csv": copy_csv, "jsonl": copy_jsonl}
