"""What the shell reads off a query: its tables, and the types of its columns. It is no parser: where it does not see through a text it
says nothing."""
from __future__ import annotations

from collections.abc import Iterator

from .catalogue import TYPES
from .statements import Token

ENDS_FROM = {"where", "group", "having", "order", "limit", "offset"}
ENDS_ITEMS = ENDS_FROM | {"from"}
CONDITIONS = {"=", "<>", "!=", "<", "<=", ">", ">=", "and", "or", "not", "is", "in", "like", "between", "true", "false"}
SIGNS = {"+", "-", "*", "/", "%"}
END = Token("mark", "")


def is_name(token: Token) -> bool:
    """Whether a token may be a name."""
    return token.kind in ("word", "quoted")


def with_depth(found: list[Token]) -> Iterator[tuple[Token, int]]:
    """Each token with the number of parentheses round it."""
    depth = 0
    for it in found:
        depth -= it == ("mark", ")")
        yield it, depth
        depth += it == ("mark", "(")


def parted(found: list[Token], mark: str = ",") -> list[list[Token]]:
    """The tokens between marks outside parentheses."""
    parts = [[]]
    for it, depth in with_depth(found):
        if depth == 0 and it == ("mark", mark):
            parts.append([])
        else:
            parts[-1].append(it)
    return parts


def position(found: list[Token], words: set[str], start: int = 0) -> int:
    """Where one of these words is outside parentheses; the end where none is."""
    for at, (it, depth) in enumerate(with_depth(found)):
        if at >= start and depth == 0 and it.kind == "word" and it.value in words:
            return at
    return len(found)


def entries(found: list[Token]) -> list[tuple[str, str]]:
    """Pairs of the name by which an entry of FROM, or the target of a write, is called, and its table."""
    pairs, is_from = [], False
    for at, (it, depth) in enumerate(with_depth(found)):
        before = found[at - 1] if at else END
        if depth == 0 and it.kind == "word" and (it.value == "from" or it.value in ENDS_FROM):
            is_from = it.value == "from"
        is_next = is_from and depth == 0 and before == ("mark", ",")
        begins = before.kind == "word" and before.value in ("from", "join", "into", "update") or is_next
        if begins and is_name(it):
            pairs.append((alias(found, at) or it.value, it.value))
    return pairs


def alias(found: list[Token], at: int) -> str:
    """The name after the table at this place, if there is one."""
    behind = (found[at + 1:] + [END, END])[:2]
    if behind[0] == ("word", "as"):
        return behind[1].value
    is_alias = behind[0].kind == "quoted" or behind[0].kind == "word" and behind[0].value not in NO_ALIAS
    return behind[0].value if is_alias else ""


NO_ALIAS = ENDS_FROM | {"join", "inner", "left", "cross", "on", "set", "values", "select", "as"}


class Types:
    """The types of a query's columns over what the catalogue knows."""

    def __init__(self, catalogue, found) -> None:
        self.tables, self.tokens = catalogue.tables, found
        self.entries = [(name, self.tables.get(table)) for name, table in entries(found)]

    def of_output(self) -> list[str]:
        """The type of each output column, the empty text where it is not known; an empty list where not even their number is."""
        start = position(self.tokens, {"select"}) + 1
        while self.tokens[start:start + 1] in ([("word", "distinct")], [("word", "all")]):
            start += 1
        found = []
        for item in parted(self.tokens[start:position(self.tokens, ENDS_ITEMS, start)]):
            more = self.of_item(item)
            if more is None:
                return []
            found += more
        return found

    def of_item(self, item: list[Token]) -> list[str] | None:
        """The types of an item's outputs: several for an asterisk; None where a table is not known."""
        if item[-1:] != [("mark", "*")] or len(item) == 2:
            return [self.of_expression(without_label(item))]
        chosen = [table for name, table in self.entries if len(item) == 1 or name == item[0].value]
        if None in chosen or not chosen:
            return None
        return [TYPES.get(column.type, "") for table in chosen for column in table.columns]

    def of_expression(self, found: list[Token]) -> str:
        """The type of an expression, as far as it is known."""
        outside = {it.value for it, depth in with_depth(found) if depth == 0 and it.kind in ("word", "mark")}
        if outside & CONDITIONS:
            return "boolean"
        if len(found) > 1 and outside & SIGNS:
            return "integer"
        if found[:1] == [("mark", "(")]:
            return self.of_expression(found[1:-1])
        if len(found) > 3 and found[1] == ("mark", "("):
            return self.of_function(found[0].value, found[2:-1])
        return self.of_name(found)

    def of_function(self, name: str, argument: list[Token]) -> str:
        """The type of a function's value."""
        if name in ("count", "sum"):
            return "integer"
        return self.of_expression(argument) if name in ("min", "max") else ""

    def of_name(self, found: list[Token]) -> str:
        """The type of a literal or a column."""
        if len(found) == 1 and not is_name(found[0]):
            return {"number": "integer", "text": "text"}.get(found[0].kind, "")
        if not found or len(found) not in (1, 3):
            return ""
        types = {TYPES.get(column.type, "") for name, table in self.entries if table and (len(found) == 1 or name == found[0].value)
                 for column in table.columns if column.name == found[-1].value}
        return types.pop() if len(types) == 1 and all(table for _, table in self.entries) else ""


def without_label(item: list[Token]) -> list[Token]:
    """An item without the name that it is given."""
    if len(item) > 2 and item[-2] == ("word", "as"):
        return item[:-2]
    joins = {".", *SIGNS, *CONDITIONS, "("}
    if len(item) > 1 and is_name(item[-1]) and item[-1].value not in CONDITIONS | {"null", "unknown"} and item[-2].value not in joins:
        return item[:-1]
    return item
