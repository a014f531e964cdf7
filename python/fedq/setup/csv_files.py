"""CSV files: their records, their columns, and what may surprise in them."""
import csv, io, itertools, re
from typing import Iterable, Iterator, List, Optional, Tuple

from ..names import quoted_name
from ..notes import COPIED
from ..sql import quoted_text
from ..terminal import path_word, shell_word
from .advice import MOST_SAID, NUL, Refused, Report, beside, listed, own_name, plain_name, python_text, shown
from .csv_cells import NULLS, Column, Look, kind_of, null_text
from .files import content, is_copy, packed, text_of

MOST_ROWS, MOST_COLUMNS = 1_000_000, 64
NO_NAMES = {"bit", "integer", "zeros", "plus", "large", "whole", "decimal", "signed", "date", "time", "zoned", "ymd", "day"}
SEPARATOR_LINE = re.compile(r'\ufeff?"?sep=([,;\t|])"?(?:\r\n|\r|\n)')  # (which Excel reads, and some programs write for it)
PLAIN_NUMBER = re.compile(r"(?!-0(?:\.0+)?$)-?(?:0|[1-9][0-9]*)(?:\.[0-9]+)?").fullmatch
OPEN_QUOTE = "a quote is never closed: the rest of the file is one cell"


def records(text: str, mark: str = ",") -> Iterator[Tuple[int, List[str]]]:
    """The line on which each record begins, and its fields, as the program reads them: no blank lines, no byte order mark at the start.
    `mark` parts the fields."""
    csv.field_size_limit(2 ** 31 - 1)
    reader = csv.reader(io.StringIO(text[1:] if text[:1] == "\ufeff" else text, newline=""), delimiter=mark)
    line = 1
    for fields in reader:
        if fields:
            yield line, fields
        line = reader.line_num + 1


def rewritten(rows: str, path: str, end: str) -> str:
    """The command that writes these rows of a CSV file, an expression of Python, beside it."""
    program = f"import csv, sys; csv.writer(sys.stdout).writerows({rows})"
    return f"python3 -c {shell_word(program)} < {path_word(path)} > {beside(path, end)}"


def separator(text: str) -> Tuple[str, str]:
    """What parts the fields of a file, by its first lines, and what it is called."""
    begin = text[:65536].lstrip()
    if "," in begin.splitlines()[0] if begin else True:
        return ",", "commas"
    for mark, name in ((";", "semicolons"), ("\t", "TABs"), ("|", "bars")):
        counts = [len(fields) for _, fields in itertools.islice(records(begin, mark), 20)]
        if counts and counts[0] > 1 and sum(it == counts[0] for it in counts) * 2 > len(counts):
            return mark, name
    return ",", "commas"


def parted_by(path: str, text: str) -> None:
    """Refuses a file whose fields are separated by something else than commas, or whose first line names a separator."""
    sign = SEPARATOR_LINE.match(text)
    if sign:
        rows = f"csv.reader((sys.stdin.readline(), sys.stdin)[1], delimiter={python_text(sign[1])})"
        raise Refused(f" is {shown('sep=' + sign[1])}, which Excel alone reads: {rewritten(rows, path, '_rows.csv')}", 1, by_copy=True)
    mark, name = separator(text)
    if mark != ",":
        rows = f"csv.reader(sys.stdin, delimiter={python_text(mark)})"
        raise Refused(f" is separated by {name}, not by commas: {rewritten(rows, path, '_commas.csv')}", 1, by_copy=True)


def is_open_quote(text: str, mark: str) -> bool:
    """Whether a record that ends with the file ends within quotes. `mark` parts the fields."""
    sign = re.escape(mark)
    field = rf'(?:"[^"]*(?:""[^"]*)*"(?!")[^{sign}\r\n]*|[^"{sign}\r\n][^{sign}\r\n]*|)'
    return re.fullmatch(rf"{field}(?:{sign}{field})*[\r\n]*", text) is None


def quotes(report: Report, text: str, last: int, mark: str = ",") -> None:
    """Warns of a quote that is never closed, which makes the rest of the file one cell, and of text after a closing quote."""
    if '"' not in text:
        return
    lines = re.split(r"(?<=\n)|(?<=\r)(?!\n)", text)
    if is_open_quote("".join(lines[last - 1:]), mark):
        report.warn(f": {OPEN_QUOTE}", last)
        report.open_quote = last
    reader = csv.reader(io.StringIO(text, newline=""), strict=True, delimiter=mark)
    try:
        for _ in reader:
            pass
    except csv.Error as error:
        if "expected after" in str(error):
            report.warn(": there is text after a closing quote: was a quote within the cell not doubled?", reader.line_num)


def widths(report: Report, found: list, wanted: int, whose: str) -> bool:
    """Reports each record with another number of fields; whether there is none."""
    odd = [(line, fields) for line, fields in found if len(fields) != wanted]
    if ends_in_commas(found, odd, wanted):
        report.fault(f" has {wanted + 1} fields, {whose} {wanted}: each row ends in a comma: sed 's/,$//'", odd[0][0])
        report.by_copy = True
    else:
        for line, fields in odd[:MOST_SAID + 1]:
            report.fault(f" has {len(fields)} field{'s' * (len(fields) != 1)}, {whose} {wanted}", line)
    return not odd


def ends_in_commas(found: list, odd: list, wanted: int) -> bool:
    """Whether each record but the first has one field more, which is empty."""
    return len(odd) == len(found) - 1 > 0 and all(len(fields) == wanted + 1 and fields[-1] == "" for _, fields in odd)


def ragged(report: Report, found: list, path: str, mark: str = ",", is_text: bool = True) -> bool:
    """Reports once that records have another number of fields than the first, with the way out; whether there is none. `mark` parts the
    fields, and `is_text` is whether the file is text in UTF-8, so that a command can read it. Where a quote is never closed that alone is
    reported, as it may be why."""
    wanted = len(found[0][1])
    odd = [(line, fields) for line, fields in found if len(fields) != wanted]
    if not odd or ends_in_commas(found, odd, wanted):
        return widths(report, found, wanted, "the first record")
    if report.open_quote is not None:
        report.warnings = [it for it in report.warnings if OPEN_QUOTE not in it]
        report.fault(f": {OPEN_QUOTE}: close it, or double a quote within a cell", report.open_quote)
        return False
    line, fields = odd[0]
    more = f"{len(odd) - 1:,} more record{'s have' if len(odd) > 2 else ' has'}"
    rest = f" (and {more} {'others' if len(odd) > 2 else 'another number'} than {wanted})" if len(odd) > 1 else ""
    if is_text and found[0][1][0].startswith("#") and len(odd) == len(found) - 1:
        out = f"line 1 looks like a comment: grep -v '^#' {path_word(path)} > {beside(path, '_rows.csv')}"
    elif all(len(it) < wanted for _, it in odd):
        parted = f", delimiter={python_text(mark)}" if mark != "," else ""
        rows = f'(row + [""] * ({wanted} - len(row)) for row in csv.reader(sys.stdin{parted}) if row)'
        command = f": {rewritten(rows, path, '_filled.csv')}" if is_text else ", after it is unpacked and in UTF-8"
        out = f"filled up with empty cells{command}"
    else:
        out = "a cell with a comma needs double quotes around it, or the heading lacks a name"
    report.fault(f" has {len(fields)} field{'s' * (len(fields) != 1)}, the first record {wanted}{rest}: {out}", line)
    return False


def read_csv(path: str, report: Report) -> Tuple[list, Optional[Refused], str]:
    """The records of a CSV file; what it looks to be instead, as a Refused, or None; and its text without a byte order mark."""
    raw, other = content(path), None
    try:
        packed(path, raw)
        text = text_of(path, raw)
        parted_by(path, text)
    except Refused as refused:
        other = refused
        try:
            text = raw.decode()
        except UnicodeDecodeError:
            raise refused from None
    found = list(records(text.replace("\0", NUL)))
    if len(found) > MOST_ROWS + 1:
        raise Refused(f" has {len(found) - 1:,} rows, and {MOST_ROWS:,} can be read: split it (split -l), a table each")
    text = text[1:] if text[:1] == "\ufeff" else text
    if found:
        quotes(report, text, found[-1][0])
    return found, other, text


def has_header(report: Report, first: List[str], columns: List[Column]) -> bool:
    """Whether the first record names the columns; warns where that is a guess."""
    kinds = {kind_of(it) for it in first}
    if kinds & NO_NAMES or kinds <= {"empty"}:
        said = ", ".join(f"c{place + 1}" for place in range(min(3, len(first))))
        report.warn(f" has no names, as {shown(next((it for it in first if kind_of(it) not in ('text', 'empty')), ''))}: "
                    f"it is taken as a row, and the columns are called {said}{', ..' * (len(first) > 3)}", 1)
        return False
    if all(it.kinds() <= {"text", "unit"} for it in columns):
        names = ", ".join(first[:4]) + ", .." * (len(first) > 4)
        report.warn(f" is taken as the header ({names}), which is a guess where every column is text: "
                    "if it is a row, take header 'true' out", 1)
    return True


def heading_names(report: Report, first: List[str]) -> List[str]:
    """The columns' names of a header's fields."""
    taken, names = set(), []
    for place, text in enumerate(first, 1):
        wanted = plain_name(text, place)
        name = own_name(wanted, taken)
        if not text.strip():
            report.warn(f" has no name for column {place}: it is called {name}", 1)
        elif name != wanted:
            report.warn(f" has the name {shown(text)} twice: the second is called {name}", 1)
        names.append(name)
    return names


def written_twice(texts: Iterable[str]) -> Optional[Tuple[str, str]]:
    """The first two of these texts that are one number, as 2.5 and 2.50; None where each number is written in one way, and where the texts
    may mean several numbers. Texts that mean NULL are passed over."""
    given = [it for it in dict.fromkeys(texts) if it and it not in NULLS]
    if all(map(PLAIN_NUMBER, given)):
        found = [it.rstrip("0").rstrip(".") if "." in it else it for it in given]
    else:
        from .copy_cells import numbers  # (Python's decimals take time to import)
        found = numbers(given) or []
    first = {}  # type: dict
    for text, number in zip(given, found):
        if first.setdefault(number, text) is not text:
            return first[number], text
    return None


BY_TEXT = "text, so sum is refused, and max, min, <, BETWEEN and ORDER BY go by characters"


def kinds_of_notes(column: Column, look: Optional[Look], has_empty_texts: bool) -> List[str]:
    """The kinds of `fedq.notes` of a column that is text and looks so; `has_empty_texts` is whether its empty cells are texts, not NULL."""
    if look and look.kind:
        return [look.kind] + ["two_ways"] * (look.kind == "decimal" and column.twice is not None)
    return ["empty_text"] if column.count["empty"] and has_empty_texts else []


def column_notes(report: Report, seen: List[Tuple[str, Column]], null: str, choice: str) -> Tuple[str, str]:
    """What may mislead in the columns that are text, in one line, and what does no harm. `seen` are these, each with its name; `choice`
    is what is said of their empty cells, if anything is. Their notes go to the report."""
    misled, calm, others = [], [], []
    for name, column in seen:
        look, nulls = column.look(), [it for it in sorted(column.nulls, key=column.nulls.get) if it != null]
        if look and nulls:
            said = " and ".join(f"{shown(it)} (line {column.nulls[it]})" for it in nulls)
            look = Look(f"{look.said}, and {said} for NULL, for which a file has one text, here {shown(null)}", look.kind or "mixed", True)
        if look and look.misleads and column.count["empty"] and null:
            look = look._replace(said=f"{look.said}, and count counts its {column.count['empty']:,} empty cells")
        if look:
            (misled if look.misleads else calm).append(f"{name} {look.said}")
        report.notes += [(name, kind) for kind in kinds_of_notes(column, look, bool(null))]
        if null in column.nulls and null != "\\N" and not look:
            others.append(f"{name}: {shown(null)} is read as NULL here too (line {column.nulls[null]})")
    by_text = f"{BY_TEXT}: {listed(misled)}" if misled else ""
    parts = [it for it in (by_text, listed(calm) if misled or others or choice else "", *others[:4], choice) if it]
    report.by_copy = report.by_copy or any(kind in COPIED for _, kind in report.notes)
    return "; ".join(parts), f"text: {listed(calm)}" if calm and not parts else ""


def quoted_empty(text: str, mark: str = ",") -> Optional[int]:
    """The line of the first field that is empty and in quotes; None where there is none. `mark` parts the fields."""
    sign = re.escape(mark)
    if not re.search(rf'(?:^|[{sign}\r\n])""(?:[{sign}\r\n]|$)', text):
        return None
    for field in re.finditer(rf'("[^"]*(?:""[^"]*)*"[^{sign}\r\n]*|[^{sign}\r\n]*)(?:{sign}|\r\n|\r|\n|$)', text):
        if field[1] == '""':
            return len(re.findall(r"\r\n|\r|\n", text[:field.start()])) + 1
    return None


def null_choice(text: str, columns: List[Column], seen: List[Tuple[str, Column]], null: str) -> Tuple[str, str]:
    """The text of NULL where columns that are text, `seen` with their names, have empty cells, and what is said of that. Empty cells become
    NULL where none is in quotes, and no other text means NULL in the file."""
    empty = [name for name, column in seen if column.count["empty"]]
    if not empty:
        return null, ""
    line = quoted_empty(text)
    lines = [it.nulls[null] for it in columns if null in it.nulls]
    other = f"{shown(null)} in line {min(lines)} is NULL already" if lines else ""
    if line is None and not other:
        return "", ""
    why = other or f"line {line} has one in quotes; null '' in OPTIONS makes all of them NULL"
    return null, f"empty cells of {listed(empty)} are empty texts and not NULL, as {why}"


def see_records(columns: List[Column], found: list) -> None:
    """Shows the records to the columns, 1,000 at a time."""
    for begin in range(0, len(found), 1000):
        lines, rows = zip(*found[begin:begin + 1000])
        for column, texts in zip(columns, zip(*rows)):
            column.see(texts, lines)
            if NUL in "".join(texts):
                raise Refused(" has U+0000: tr -d '\\000'", next(line for line, text in zip(lines, texts) if NUL in text))


def bind_csv(path: str, report: Report) -> Optional[Tuple[List[str], str]]:
    """The columns of a CSV file, as they are declared, and the table's further options; None where it cannot be bound."""
    found, other, text = read_csv(path, report)
    if other or not found:
        raise other or Refused(" has no record")
    first = found[0][1]
    if not ragged(report, found, path):
        return None
    if len(first) > MOST_COLUMNS:
        rows = f"row[:{MOST_COLUMNS}] for row in csv.reader(sys.stdin)"
        raise Refused(f" has {len(first)} columns, and a table at most {MOST_COLUMNS} (row[:{MOST_COLUMNS}] are the first, "
                      f"row[{MOST_COLUMNS}:{2 * MOST_COLUMNS}] the next): {rewritten(rows, path, '_64.csv')}", 1)
    columns = [Column() for _ in first]
    see_records(columns, found[1:])
    header = is_copy(path) or has_header(report, first, columns)
    if not header:
        see_records(columns, found[:1])
    if len(found) - header > MOST_ROWS:
        raise Refused(f" has {len(found) - header:,} rows, and {MOST_ROWS:,} can be read: split it (split -l), a table each")
    names = heading_names(report, first) if header else [f"c{place}" for place in range(1, len(first) + 1)]
    null = null_text(columns)
    texts = [(name, it) for name, it in zip(names, columns) if it.type_under(null) == "text"]
    null, choice = null_choice(text, columns, texts, null)
    for at, it in enumerate(columns):
        if it.is_decimal():
            it.twice = written_twice(fields[at] for _, fields in found[header:])
    kinds = [it.type_under(null) for it in columns]
    misled, calm = column_notes(report, [(name, it) for name, it, kind in zip(names, columns, kinds) if kind == "text"], null, choice)
    if misled:
        report.warn(f": {misled}")
    elif calm:
        report.notice(f": {calm}")
    options = (", header 'true'" if header else "") + ("" if null == "\\N" else f", null {quoted_text(null)}")
    return [f"{quoted_name(name)} {kind}" for name, kind in zip(names, kinds)], options
