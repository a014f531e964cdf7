"""What is said under a result that orders, compares or groups by a column whose values go by text, as decimals do, numbers with a unit,
and dates that begin with the day."""
from __future__ import annotations

from collections.abc import Iterable, Iterator

from ..names import quoted_name
from ..notes import ColumnNote
from .queries import CONDITIONS, END, ENDS_FROM, entries, is_name, parted, position, with_depth, without_label
from .statements import Token, tokens

MOST_READ = 20000  # characters of a statement that is looked through
BEGINS_CLAUSE = ENDS_FROM | {"from", "select", "union"}
READERS = {"select", "declare", "insert", "update", "delete"}
ORDERS = {"<", "<=", ">", ">=", "between"}
EQUALS = {"=", "<>", "!="}
SAID = {
    "decimal": "holds decimals as texts: ORDER BY, =, <, >, BETWEEN, min and max go by text, so '10.25' comes before '2.5', and "
               "'2.50' is not '2.5'; fedq-setup --copy makes whole numbers of them",
    "two_ways": "has one number written in two ways, as '2.5' and '2.50': GROUP BY and DISTINCT take them for two; fedq-setup --copy makes "
                "whole numbers of them",
    "unit": "holds numbers with a unit as texts: ORDER BY, <, >, BETWEEN, min and max go by text, so '12 km' comes before '9 km'; "
            "fedq-setup --copy makes whole numbers of them",
    "units": "holds numbers as texts, with several units or some without: ORDER BY, <, >, BETWEEN, min and max go by text, so '9 km' comes "
             "after '12 m'; write all in one unit, and fedq-setup --copy makes whole numbers of them",
    "day_first_date": "holds dates that do not begin with the year: ORDER BY, <, >, BETWEEN, min and max go by text, so '01/02/2025' comes "
                      "before '31/12/2024'; write them as 2024-12-31 to order by time",
    "mixed": "holds numbers or times as texts, in several forms or beside texts: ORDER BY, <, >, BETWEEN, min and max go by text, so '10' "
             "comes before '9'",
}
EMPTY_TEXT = "has empty texts, which are not NULL: IS NULL does not find them, count counts them; {0} = '' finds them"


def column_hints(text: str, notes: Iterable[ColumnNote]) -> list[str]:
    """One line for each note of a column that a statement orders, compares, or (of one with empty texts) counts or tests for NULL, or (of
    one with a number in two ways) groups by."""
    return list(dict.fromkeys(map(said_of, matching(text, notes))))


def noted_columns(text: str, notes: Iterable[ColumnNote]) -> list[tuple[str, str]]:
    """The tables and columns that `column_hints` has a line for."""
    return list(dict.fromkeys((it.table, it.column) for it in matching(text, notes)))


def said_of(note: ColumnNote) -> str:
    """What is said of a note's column."""
    name = quoted_name(note.column)
    return f"hint: {name} {EMPTY_TEXT.format(name) if note.kind == 'empty_text' else SAID[note.kind]}"


def matching(text: str, notes: Iterable[ColumnNote]) -> list[ColumnNote]:
    """The notes that matter to what a statement does with their columns."""
    found = read_tokens(text) if notes else []
    return list(matching_tokens(found, notes)) if found else []


def read_tokens(text: str) -> list[Token]:
    """The tokens of a statement that reads rows; none of another, and none of a long one."""
    found = tokens(text) if len(text) <= MOST_READ else []
    return found if found and found[0].kind == "word" and found[0].value in READERS else []


def matching_tokens(found: list[Token], notes: Iterable[ColumnNote]) -> Iterator[ColumnNote]:
    """The notes that matter, one for each place that has such a column."""
    called = entries(found)
    noted = [(entry, note) for entry, table in called for note in notes if note.table == table]
    outputs, clauses = ordered_outputs(found), clauses_of(found)
    for at, it in enumerate(found):
        is_star = it == ("mark", "*") and clauses[at] == "distinct"
        if not is_name(it) and not is_star or found[at + 1:at + 2] == [("mark", ".")]:
            continue
        is_qualified = found[at - 1:at] == [("mark", ".")] and at > 1
        entry = found[at - 2].value if is_qualified else ""
        begin = at - 2 if is_qualified else at
        is_grouped = clauses[at] == "group" or clauses[at] == "distinct" and is_item(found, begin, at)
        is_by_text = not is_star and (at in outputs or is_compared(found, begin, at) or clauses[at] == "order")
        for note in (note for own, note in noted if entry in ("", own) and (is_star or note.column == it.value)):
            is_one = {"empty_text": not is_star and is_counted(found, begin, at), "two_ways": is_grouped}.get(note.kind, is_by_text)
            if is_one or note.kind == "decimal" and not is_star and is_equated(found, begin, at):
                yield note


def around(found: list[Token], begin: int, end: int) -> tuple[list[Token], list[Token]]:
    """The two tokens before a column, the nearest first, and the two after it."""
    before = [found[at] if at >= 0 else END for at in (begin - 1, begin - 2)]
    return before, (found[end + 1:end + 3] + [END, END])[:2]


def is_counted(found: list[Token], begin: int, end: int) -> bool:
    """Whether a column is an argument of count, or tested by IS."""
    before, after = around(found, begin, end)
    return before[0] == ("mark", "(") and before[1] == ("word", "count") or after[0] == ("word", "is")


def is_equated(found: list[Token], begin: int, end: int) -> bool:
    """Whether a column is an operand of =, <> or !=, or tested by IN, and not what SET gives a value."""
    before, after = around(found, begin, end)
    if found[0].value == "update" and before[0] in (("word", "set"), ("mark", ",")):
        return False
    is_in = after[0] == ("word", "in") or after == [("word", "not"), ("word", "in")]
    return is_in or any(it.kind == "mark" and it.value in EQUALS for it in (before[0], after[0]))


def is_compared(found: list[Token], begin: int, end: int) -> bool:
    """Whether a column is an operand of an order, or the argument of min or max."""
    before, after = around(found, begin, end)
    is_argument = before[0] == ("mark", "(") and before[1].kind == "word" and before[1].value in ("min", "max")
    is_between = after[0] == ("word", "not") and after[1] == ("word", "between")
    is_upper = before[0] == ("word", "and") and "between" in [it.value for it in found[max(0, begin - 4):begin] if it.kind == "word"]
    return is_argument or is_between or is_upper or any(it.kind in ("mark", "word") and it.value in ORDERS for it in (before[0], after[0]))


def ordered_outputs(found: list[Token]) -> set[int]:
    """The places of columns that are items by themselves, where a key of ORDER BY is the item's name or number."""
    start = position(found, {"select"}) + 1
    while found[start:start + 1] in ([("word", "distinct")], [("word", "all")]):
        start += 1
    order = position(found, {"order"}, start)
    keys = [it[0] for it in parted(found[order + 2:position(found, {"limit", "offset"}, order)]) if it]
    names, places, at, is_counted = {it.value for it in keys if is_name(it)}, set(), start, True
    for number, item in enumerate(parted(found[start:position(found, ENDS_FROM | {"from"}, start)]), 1):
        column = without_label(item)
        is_counted = is_counted and item[-1:] != [("mark", "*")]  # (an asterisk is several)
        is_key = len(item) > len(column) and item[-1].value in names or is_counted and ("number", str(number)) in keys
        if len(column) in (1, 3) and is_name(column[-1]) and is_key:
            places.add(at + len(column) - 1)
        at += len(item) + 1
    return places


def is_item(found: list[Token], begin: int, end: int) -> bool:
    """Whether a column, or an asterisk, is an item of SELECT DISTINCT by itself."""
    before, after = around(found, begin, end)
    is_end = after[0].value in (",", "") if after[0].kind == "mark" else after[0].kind == "quoted" or after[0].value not in CONDITIONS
    return before[0] in (("word", "distinct"), ("mark", ",")) and is_end


def clauses_of(found: list[Token]) -> list[str]:
    """The word that begins the clause of each token; `distinct` for the items of SELECT DISTINCT, and nothing within parentheses."""
    clauses, clause, before = [], "", END
    for it, depth in with_depth(found):
        if depth == 0 and it.kind == "word" and (it.value in BEGINS_CLAUSE or it.value == "distinct" and before == ("word", "select")):
            clause = it.value
        clauses.append(clause if depth == 0 or clause == "order" else "")
        before = it
    return clauses
