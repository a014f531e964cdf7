"""`advice`: what helps with a refused statement, by its code."""
from __future__ import annotations

from typing import Any, List, Mapping, NamedTuple, Optional, Sequence

from ..sql import RESERVED, Placed, placed
from .finding import lacking, slip
from .grammar import Failure, Grammar, TooHigh
from .judging import Judge, Finding
from .limits import Folder, limit, lost, signs, too_high
from .rows import BY_KEY

CODES = ("42601", "42883", "42804", "42803", "0A000", "42703", "54000", "55000")


class Advice(NamedTuple):
    """What was found, what to write instead (or nothing), and the place in the text, as offsets of characters."""
    detail: str
    hint: str
    begin: int
    end: int


def advice(code: str, text: str, tables: Optional[Mapping[str, Any]] = None, folder_of: Optional[Folder] = None) -> Optional[Advice]:
    """What helps with a statement that the program refused by this code, its text being as the program got it; None where nothing is
    seen. `tables` are the foreign tables that are known, by name: each has `columns` with `name` and `type`, and `options`. `folder_of`
    returns the kind and the path of a table's source."""
    return advice_on(code, raw(placed(text)), len(text), tables, folder_of) if code in CODES else None


def raw(found: Sequence[Placed]) -> List[Placed]:
    """Tokens as the program reads them, which has no parameters."""
    return [it._replace(kind="placeholder") if it.kind == "parameter" else it for it in found]


def advice_on(code: str, found: Sequence[Placed], length: int, tables: Optional[Mapping[str, Any]] = None,
              folder_of: Optional[Folder] = None) -> Optional[Advice]:
    """As `advice`, of the tokens of a text of this length."""
    if code not in CODES:
        return None
    try:
        finding = finding_of(code, Grammar(found, length), tables or {}, folder_of)
    except RecursionError:  # (the caller is nested deeply itself)
        return None
    if finding is None:
        return None
    tokens = [*found, Placed("end", "", "", length, length)]
    first, last = tokens[min(finding.begin, len(found))], tokens[min(max(finding.end - 1, finding.begin), len(found))]
    return Advice(finding.detail, finding.hint, first.begin, last.end)


def finding_of(code: str, grammar: Grammar, tables: Mapping[str, Any], folder_of: Optional[Folder]) -> Optional[Finding]:
    """What is found of a statement that was refused by this code."""
    try:
        grammar.line()
    except Failure as failure:
        return of_failure(code, grammar, failure)
    except TooHigh as failure:
        return too_high(failure.at) if code == "54000" else None
    judge = Judge(grammar, tables)
    rules = {"42601": judge.numbers, "42883": judge.undefined_function, "42804": judge.mismatch, "42803": judge.grouping,
             "42703": judge.lacking_name, "0A000": judge.not_supported, "54000": lambda: limit(grammar),
             "55000": lambda: lost(grammar, tables, folder_of)}
    return rules[code]()


def of_failure(code: str, grammar: Grammar, failure: Failure) -> Optional[Finding]:
    """What is found where no statement goes on so. Only a refusal for the syntax is explained by it."""
    if code not in ("42601", "54000"):
        return None
    more = signs(grammar) if code == "54000" else ""
    if code == "54000" and not more:
        return None
    found = grammar.found[:-1]
    row = lacking(found, failure)
    if row:
        return Finding(f"{more}not in this SQL: {BY_KEY[row[0]].shown}", BY_KEY[row[0]].hint, row[1], row[1] + 1)
    it = grammar.found[failure.at]
    what = f"{it.raw[:40]} cannot be here" if it.raw else "the statement ends too early"
    if it.kind == "word" and it.value in RESERVED:
        what = f"{it.value.upper()} cannot be here"
    found_slip = slip(found, failure)
    if found_slip:
        return Finding(more + what, found_slip[0], found_slip[1], found_slip[1] + 1)
    wanted = "" if failure.wanted in ("the end", "a statement") else f"; {failure.wanted} is wanted"
    return Finding(more + what + wanted, "", failure.at, failure.at + 1)
