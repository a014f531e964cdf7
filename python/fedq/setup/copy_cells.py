"""What a copy makes of the columns of a table: whole numbers of decimals and of numbers with a unit, a month beside each date."""
import datetime, decimal, re
from dataclasses import dataclass, field
from typing import List, Optional, Set, Tuple

from .advice import Report, listed, own_name, plain_name, shown
from .csv_cells import DATE, DATES, NULLS, SORT_OF_UNIT, kind_of, unit_of

Values = List[Optional[str]]
MOST_COLUMNS, MOST_DIGITS = 64, 12
EXACT = decimal.Context(prec=60, traps=[decimal.Inexact, decimal.InvalidOperation])
POINT = re.compile(r"[+-]?(?:(?:[0-9]+|[0-9]{1,3}(?:[,' ][0-9]{3})+)(?:\.[0-9]*)?|\.[0-9]+)(?:[eE][+-]?[0-9]{1,2})?")
COMMA = re.compile(r"[+-]?(?:[0-9]+|[0-9]{1,3}(?:[.' ][0-9]{3})+)(?:,[0-9]+)?")


@dataclass
class Cells:
    """A column of a copy: its name in SQL, what it was called, its values as texts with None for NULL, and what was done to it."""
    name: str
    origin: str
    values: Values
    did: List[str] = field(default_factory=list)
    kind: str = "text"


def plain_number(text: str, is_comma: bool) -> Optional[decimal.Decimal]:
    """The number that a text means where the mark of decimals is a comma or a point; None where it means none."""
    text = text.strip(" ")
    if not (COMMA if is_comma else POINT).fullmatch(text):
        return None
    text = re.sub(r"[.' ]", "", text).replace(",", ".") if is_comma else re.sub(r"[,' ]", "", text)
    return decimal.Decimal(text)


def numbers(texts: List[str]) -> Optional[List[decimal.Decimal]]:
    """The numbers that all texts of a column mean; None where one means none, or where they may mean two things."""
    may_be_comma = any("," in it or it.count(".") > 1 for it in texts)
    readings = []
    for is_comma in (False, True) if may_be_comma else (False, ):
        found = []
        for it in texts:
            number = plain_number(it, is_comma)
            if number is None:
                break
            found.append(number)
        else:
            readings.append(found)
    return readings[0] if len(readings) == 1 or len(readings) == 2 and readings[0] == readings[1] else None


def scaled(found: List[decimal.Decimal]) -> Optional[Tuple[int, List[int]]]:
    """How many digits after the point there are, and the numbers times ten to that power; None where one is out of range. Numbers that
    are all written with one 0 after the point have none."""
    digits = max(max(0, -it.as_tuple().exponent) for it in found)
    if digits == 1 and all(it == it.to_integral_value() for it in found):
        digits = 0
    if digits > MOST_DIGITS:
        return None
    try:
        whole = [int(EXACT.scaleb(it, digits)) for it in found]
    except decimal.DecimalException:
        return None
    return (digits, whole) if all(-2 ** 63 <= it < 2 ** 63 for it in whole) else None


def without_unit(column: Cells, texts: List[str], report: Report) -> Optional[Tuple[str, List[str]]]:
    """The one unit of a column of numbers with a unit, and the texts of the numbers; None where there are several units, which is said
    where they are of one sort."""
    units = [*dict.fromkeys(map(unit_of, texts))]
    if len(units) > 1:
        if len({SORT_OF_UNIT[it] for it in units}) == 1:
            report.warn(f" column {column.name}: the numbers have several units ({listed(units)}): it stays text")
        return None
    return units[0], [it.rstrip(" ")[:-len(units[0])].rstrip(" ") for it in texts]


def as_numbers(column: Cells, taken: Set[str], report: Report) -> None:
    """Makes whole numbers of a column of decimals, or of numbers with one unit, with the unit and the scale in its name; says where it has
    no exact ones."""
    texts = [it for it in column.values if it is not None and it not in NULLS and it != ""]
    kinds = {kind_of(it) for it in texts}
    whole, unit = {"bit", "integer", "plus"}, ""
    if texts and kinds == {"unit"}:
        parted = without_unit(column, texts, report)
        if not parted:
            return
        unit, texts = parted
    elif not texts or kinds <= whole or not kinds <= whole | {"whole", "decimal", "thousands", "comma"}:
        return
    found = numbers(texts)
    made = scaled(found) if found else None
    if made is None:
        why = "are beyond the range of integers" if found else "may be read in two ways, or are no numbers"
        report.warn(f" column {column.name}: the numbers, as {shown(texts[0])}, {why}: it stays text")
        return
    digits, whole = made
    numbered = iter(whole)
    nulls = sorted({it for it in column.values if it is not None and (it in NULLS or it == "")})
    column.values = [None if it is None or it in NULLS or it == "" else str(next(numbered)) for it in column.values]
    name = with_unit(column.name, unit)
    name = f"{name[:48]}_x{10 ** digits}" if digits else name
    column.name = own_name(name, taken) if name != column.name else name
    column.kind = "integer"
    column.did += [f"without its unit {unit}"] if unit else []
    column.did += [f"times {10 ** digits}, exactly"] if digits else ["without its .0, exactly"] if not unit else []
    if nulls:
        column.did.append(f"NULL for {', '.join(map(shown, nulls))}")


def with_unit(name: str, unit: str) -> str:
    """A column's name with the unit at its end; the name alone where it ends in the unit, as dist_km, or the unit has no letter."""
    end = f"_{plain_name(unit, 1)}" if re.search(r"\w", unit) else ""
    return name if f"_{name}".endswith(end) else name[:40] + end


def null_texts(column: Cells) -> None:
    """Makes NULL of the texts that mean it in a column of integers, booleans or dates."""
    texts = {it for it in column.values if it not in (None, "") and it not in NULLS}
    kinds = {kind_of(it) for it in texts}
    is_plain = kinds <= {"bit", "integer"} or kinds <= {"bit", "boolean"}
    if not texts or not is_plain and not kinds <= DATES and not kinds <= {"day"}:
        return
    column.kind = "plain" if is_plain else "text"
    nulls = sorted({it for it in column.values if it is not None and it in NULLS})
    column.values = [None if it is None or it in NULLS or it == "" and is_plain else it for it in column.values]
    if nulls:
        column.did.append(f"NULL for {', '.join(map(shown, nulls))}")


def month_of(text: str) -> Optional[str]:
    """The month of a text that begins with a date of the calendar; None where it does not."""
    found = re.match(f" *({DATE})", text)
    try:
        datetime.datetime.strptime(found[1] if found else "", "%Y-%m-%d")
    except ValueError:
        return None
    return found[1][:7]


def months(columns: List[Cells], taken: Set[str], report: Report) -> List[Cells]:
    """The columns with a month after each date that begins with the year, where there is room for it."""
    dated = []
    for it in columns:
        texts = [text for text in it.values if text]
        if texts and it.kind == "text" and all(kind_of(text) in ("date", "time", "zoned") for text in texts):
            dated.append(it)
    made = []
    for at, it in enumerate(columns):
        made.append(it)
        if it not in dated:
            continue
        found = [month_of(text) if text else None for text in it.values]
        if any(text and not month for text, month in zip(it.values, found)):
            report.warn(f" column {it.name}: a date is none of the calendar: no month beside it")
        elif len(columns) - at + len(made) > MOST_COLUMNS:
            report.warn(f" column {it.name}: there is no room for its month, as a table has at most {MOST_COLUMNS} columns")
        else:
            name = own_name("month" if len(dated) == 1 else f"{it.name[:50]}_month", taken)
            made.append(Cells(name, it.origin, found, ["its month, as it is written"]))
    return made


def improved(columns: List[Cells], report: Report, has_nulls: bool = True) -> List[Cells]:
    """What a copy makes of columns: whole numbers of decimals and of numbers with a unit, months beside dates; and, with `has_nulls`, NULL
    for the texts that mean it among numbers, truth values and dates."""
    taken = {it.name for it in columns}
    for it in columns:
        if it.kind == "text" and has_nulls:
            null_texts(it)
        if it.kind == "text":
            as_numbers(it, taken, report)
    return months(columns, taken, report)
