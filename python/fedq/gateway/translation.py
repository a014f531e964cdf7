"""Questions to the catalogue in PostgreSQL's SQL, as SQLite's: casts, regular expressions, arrays, names of tables as numbers. It works
on tokens, and leaves as it is what it does not know."""
import json
from typing import Callable, Dict, List, Optional, Sequence

from ..sql import Token, Unsayable

RENAMED = {"string_agg": "group_concat", "array_agg": "json_group_array", "json_build_object": "json_object", "strpos": "instr",
           "ilike": "LIKE"}
BARE = {"current_user": "current_user()", "session_user": "current_user()", "user": "current_user()", "current_schema": "current_schema()",
        "current_catalog": "current_database()", "current_role": "current_user()"}
NO_LABEL = ("integer", "text", "materialized", "not")
MOST_DEPTH = 50


def mark(raw: str) -> Token:
    return Token("mark", raw, raw)


def word(raw: str) -> Token:
    return Token("word", raw, raw.lower())


def closing(found: Sequence[Token], at: int) -> int:
    """The place of the parenthesis or bracket that closes the one at this place; the last where none does."""
    depth = 0
    for place in range(at, len(found)):
        raw = found[place].raw
        depth += raw in ("(", "[")
        depth -= raw in (")", "]")
        if depth == 0:
            return place
    return len(found) - 1


class Translator:
    """Goes over the tokens from left to right. Each rule returns the place after what it took, or None where it does not apply."""

    def __init__(self, found: List[Token], depth: int) -> None:
        if depth > MOST_DEPTH:
            raise Unsayable("54000", "the question to the catalogue is nested too deeply")
        self.found, self.depth, self.result = found, depth, []

    def raw(self, at: int) -> str:
        """The text of a token in small letters; empty after the end."""
        return self.found[at].raw.lower() if at < len(self.found) else ""

    def inner(self, start: int, end: int) -> List[Token]:
        return translated(self.found[start:end], self.depth + 1)

    def all(self) -> List[Token]:
        at = 0
        while at < len(self.found):
            rule = RULES.get(self.raw(at)) if self.found[at].kind in ("word", "mark") else None
            behind = rule(self, at) if rule else None
            if behind is None:
                behind = self.plain(at)
            at = behind
        return self.result

    def plain(self, at: int) -> int:
        it, value = self.found[at], self.raw(at)
        if it.kind == "word" and value in RENAMED and (self.raw(at + 1) == "(" or value == "ilike"):
            it = word(RENAMED[value])
        elif it.kind == "word" and value in BARE and self.raw(at + 1) != "(" and not (self.result and self.result[-1].raw in (".", "as")):
            it = word(BARE[value])
        elif it.kind == "word" and self.result and (self.result[-1].kind, self.result[-1].value) == ("word",
        "as") and value not in NO_LABEL:
            it = Token("quoted", '"' + it.value + '"', it.value)
        self.result.append(it)
        return at + 1

    # The rules

    def schema(self, at: int) -> Optional[int]:
        """pg_catalog.f( is f(."""
        return at + 2 if self.raw(at + 1) == "." and self.raw(at + 3) == "(" else None

    def operator(self, at: int) -> Optional[int]:
        """OPERATOR(pg_catalog.~) is REGEXP."""
        if self.raw(at + 1) != "(":
            return None
        end = closing(self.found, at + 1)
        last = self.found[end - 1]
        is_not = last.raw == "~" and self.raw(end - 2) == "!"
        self.result.append(word("NOT REGEXP") if is_not else word("REGEXP") if last.raw == "~" else last)
        return end + 1

    def no_match(self, at: int) -> Optional[int]:
        if self.raw(at + 1) != "~":
            return None
        is_like = self.raw(at + 2) == "~"
        self.result.append(word("NOT LIKE" if is_like else "NOT REGEXP"))
        return at + (3 if is_like else 2)

    def match(self, at: int) -> int:
        is_like = self.raw(at + 1) == "~"
        self.result.append(word("LIKE" if is_like else "REGEXP"))
        return at + (2 if is_like else 1)

    def collate(self, at: int) -> int:
        return at + (4 if self.raw(at + 2) == "." else 2)

    def any_of(self, at: int) -> Optional[int]:
        """x = ANY(array or query) is x IN (..)."""
        if self.raw(at + 1) != "(" or not self.result or self.result[-1].raw != "=":
            return None
        end = closing(self.found, at + 1)
        inner = self.inner(at + 2, end)
        self.result[-1] = word("IN")
        if inner and inner[0].value == "select":
            self.result += [mark("("), *inner, mark(")")]
        else:
            if len(inner) == 1 and inner[0].kind == "text":
                text = json.dumps([it.strip('"') for it in inner[0].value.strip("{}").split(",") if it])
                inner = [Token("text", "'" + text.replace("'", "''") + "'", text)]
            self.result += elements(inner)
        return end + 1

    def array(self, at: int) -> Optional[int]:
        if self.raw(at + 1) not in ("[", "("):
            return None
        end = closing(self.found, at + 1)
        if self.raw(at + 1) == "[":
            self.result += [word("json_array"), mark("("), *self.inner(at + 2, end), mark(")")]
        else:
            self.result += [mark("("), word("SELECT NULL"), mark(")")]
        return end + 1

    def unnest(self, at: int) -> Optional[int]:
        if self.raw(at + 1) != "(":
            return None
        end = closing(self.found, at + 1)
        self.result += elements(self.inner(at + 2, end))
        return end + 1

    def series(self, at: int) -> Optional[int]:
        if self.raw(at + 1) != "(":
            return None
        self.result += [mark("("), word("SELECT 0 AS value WHERE 0"), mark(")")]
        return closing(self.found, at + 1) + 1

    def subscript(self, at: int) -> int:
        return closing(self.found, at) + 1

    def substring(self, at: int) -> Optional[int]:
        """substring(x from a for b) is substr(x, a, b)."""
        if self.raw(at + 1) != "(":
            return None
        end = closing(self.found, at + 1)
        inner = self.inner(at + 2, end)
        has_from = any(it.value == "from" for it in inner)
        commas = {"from": mark(","), "for": mark(",") if has_from else mark(", 1,")}
        self.result += [word("substr"), mark("(")] + [commas.get(it.value, it) for it in inner] + [mark(")")]
        return end + 1

    def only(self, at: int) -> Optional[int]:
        return at + 1 if at + 1 < len(self.found) else None

    def cast(self, at: int) -> int:
        """Takes a cast away; one of a name to a table's number, or back, becomes a function."""
        at += 1
        if at >= len(self.found):
            raise Unsayable("42601", "a type is missing after ::")
        name = self.found[at].value
        while self.raw(at + 1) == "." and at + 2 < len(self.found):
            at += 2
            name = self.found[at].value
        at += 1
        for opening in ("(", "["):
            if self.raw(at) == opening:
                at = closing(self.found, at) + 1
        self.of_name(name)
        return at

    def of_name(self, name: str) -> None:
        last = self.result[-1] if self.result else None
        if last is None or name not in ("regclass", "regtype"):
            return
        if last.kind in ("text", "number"):
            self.result[-1:] = [word(name), mark("("), last, mark(")")]
        elif name == "regclass" and last.kind in ("word", "quoted") and last.value != "end":
            start = len(self.result) - (3 if len(self.result) > 2 and self.result[-2].raw == "." else 1)
            self.result[start:] = [word("regclass_text"), mark("("), *self.result[start:], mark(")")]


RULES: Dict[str, Callable[[Translator, int], Optional[int]]] = {
    "pg_catalog": Translator.schema, "operator": Translator.operator, "!": Translator.no_match, "~": Translator.match,
    "::": Translator.cast,
    "collate": Translator.collate, "any": Translator.any_of, "array": Translator.array, "unnest": Translator.unnest,
    "generate_series": Translator.series,
    "[": Translator.subscript, "substring": Translator.substring, "only": Translator.only}


def elements(inner: List[Token]) -> List[Token]:
    return [mark("("), word("SELECT value FROM json_each"), mark("("), *inner, mark(")"), mark(")")]


def translated(found: List[Token], depth: int = 0) -> List[Token]:
    """PostgreSQL's SQL as SQLite's."""
    return Translator(found, depth).all()
