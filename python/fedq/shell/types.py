"""The types of a query's columns, by the engine's answers: for a query over tables that the shell has not seen made."""
from __future__ import annotations

from collections.abc import Callable

from .. import sql

MOST_COLUMNS = 64  # of an answer
OTHER_COUNT, NO_OTHER_FAULT = "42601", "54000"


def types_by_engine(text: str, code_of: Callable[[str], str]) -> list[str]:
    """The types of the query's columns; none where the text is no query that the engine takes. `code_of` returns the code with which the
    engine refuses a statement: it judges these requests and runs none of them."""
    try:
        (found, ) = sql.statements(text)
        if found[0].value != "select":
            return []
        count = count_of_columns(found, code_of)
        return [type_of(found, count, at, code_of) for at in range(count)]
    except (sql.Unsayable, ValueError):
        return []


def count_of_columns(found: tuple[sql.Token, ...], code_of: Callable[[str], str]) -> int:
    """How many columns a query has. A query of as many NULLs may follow it by UNION ALL, and too many such are 54000. Fails with
    ValueError where the query is refused."""
    for count in range(1, MOST_COLUMNS + 1):
        code = code_of(sql.asked_type(found, count, 0, "NULL"))
        if code == NO_OTHER_FAULT:
            return count
        if code != OTHER_COUNT:
            break
    raise ValueError(f"the query is refused by {code}")


def type_of(found: tuple[sql.Token, ...], count: int, at: int, code_of: Callable[[str], str]) -> str:
    """The type of one column; one of NULLs alone is of texts."""
    for name, value in ("text", "'x'"), ("integer", "1"):
        if code_of(sql.asked_type(found, count, at, value)) == NO_OTHER_FAULT:
            return name
    return "boolean"
