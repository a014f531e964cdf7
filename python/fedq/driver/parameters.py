"""Statements with places for values. The value of a parameter is put in as a literal by its type, never by its looks."""
from __future__ import annotations

import functools
from collections.abc import Mapping
from typing import Any, List, Optional, Sequence, Tuple, Union

from ..errors import InterfaceError, ProgrammingError, error_of
from ..sql import Token, Unsayable, line, literal, places, shape, statements, tokens_of, with_depth

STYLES = ("qmark", "pyformat")
Slot = Union[int, str]


def kind_of(text: str) -> str:
    """A literal as the types of a statement see it."""
    return "text" if text[0] == "'" else text if text[0] in "NTF" else "number"


def unwrapped(text: str) -> str:
    """A literal without the parentheses of a negative number."""
    return text[1:-1] if text[0] == "(" else text


class Statement:
    """The tokens of one statement, a place of a value being the number or the name of its parameter."""

    def __init__(self, parts: Sequence[Union[Token, Slot]]) -> None:
        self.parts = parts
        self.slots: List[Slot] = [it for it in parts if not isinstance(it, Token)]
        self.count = sum(isinstance(it, int) for it in self.slots)
        self.chunks = chunks_of(parts)
        self.shape = tuple(shape([it])[0] if isinstance(it, Token) else None for it in parts)
        self.words = [it.value for it in parts[:2] if isinstance(it, Token)]

    @property
    def verb(self) -> str:
        """Its first word, in lower case."""
        return self.words[0]

    def literals(self, parameters: Any) -> List[str]:
        """The literals of its places, in order. Fails with ProgrammingError where there are too few or too many parameters, and as
        `literal` does."""
        if isinstance(parameters, Mapping):
            missing = [it for it in self.slots if it not in parameters]
            if missing:
                raise ProgrammingError(f"08P01 no parameter {missing[0]} is given", "08P01")
            values = [parameters[it] for it in self.slots]
        elif isinstance(parameters, (str, bytes)):
            raise InterfaceError("parameters are a sequence or a mapping: write (value, ) for one value")
        else:
            values = parameters if isinstance(parameters, (list, tuple)) else () if parameters is None else tuple(parameters)
            if self.count != len(values):
                raise ProgrammingError(f"08P01 the statement has places for {self.count} parameters, and {len(values)} are given", "08P01")
        try:
            return [f"({it})" if it[0] == "-" else it for it in map(literal, values)]
        except Unsayable as fault:
            raise error_of(*fault.args) from None

    def text(self, literals: Sequence[str]) -> str:
        """The text of a request line."""
        if not literals:
            return self.chunks[0]
        return "".join([it for pair in zip(self.chunks, literals) for it in pair]) + self.chunks[-1]

    def tokens(self, literals: Sequence[str]) -> List[Token]:
        """Its tokens with the values in their places."""
        left, found = iter(literals), []
        for it in self.parts:
            found += [it] if isinstance(it, Token) else tokens_of(unwrapped(next(left)))
        return found

    def key(self, literals: Sequence[str]) -> Tuple[Any, ...]:
        """What the types of its outputs depend on, beside the tables."""
        return (self.shape, *map(kind_of, literals))


def chunks_of(parts: Sequence[Union[Token, Slot]]) -> List[str]:
    """The texts before, between and after the places."""
    chunks: List[List[Token]] = [[]]
    for it in parts:
        if isinstance(it, Token):
            chunks[-1].append(it)
        else:
            chunks.append([])
    last = len(chunks) - 1
    texts = []
    for at, found in enumerate(chunks):
        before = " " if at > 0 and found and found[0].raw not in (",", ")") else ""
        after = " " if at < last and found and found[-1].raw not in (",", "(") else ""
        texts.append(before + line(found) + after if found else " " if 0 < at < last else "")
    return texts


@functools.lru_cache(2048)
def prepared(sql: str, style: str, is_named: bool, is_given: bool) -> Statement:
    """The one statement of a text. Fails with ProgrammingError (42601) where there is none or more than one, and as `statements` does."""
    is_format = style == "pyformat" and is_given
    try:
        found = statements(sql, is_format)
        if len(found) != 1:
            raise ProgrammingError(f"42601 one statement is sent at a time, and the text has {len(found)}", "42601", "syntax_error")
        return Statement(formatted(found[0], is_named) if is_format else marked(found[0], is_named))
    except Unsayable as fault:
        raise error_of(*fault.args) from None


def marked(found: Sequence[Token], is_named: bool) -> List[Union[Token, Slot]]:
    """A statement with places at each `?`, or at each `:name`."""
    parts: List[Union[Token, Slot]] = []
    count = 0
    for it in found:
        before = parts[-1] if parts else None
        if not is_named and it.raw == "?":
            parts.append(count)
            count += 1
        elif is_named and it.kind == "word" and isinstance(before, Token) and before.raw == ":":
            parts[-1] = it.raw
        else:
            parts.append(it)
    return parts


def formatted(found: Sequence[Token], is_named: bool) -> List[Union[Token, Slot]]:
    """A statement with places at each `%s`, or at each `%(name)s`; `%%` means `%`, in texts and names too."""
    parts: List[Union[Token, Slot]] = []
    count = 0
    for it in found:
        if it.kind in ("text", "quoted"):
            parts.append(it._replace(raw=it.raw.replace("%%", "%"), value=it.value.replace("%%", "%")))
        elif it.raw == "%%":
            parts.append(Token("mark", "%", "%"))
        elif it.kind != "placeholder":
            parts.append(it)
        elif is_named != (it.raw != "%s"):
            raise Unsayable("42601", "%s takes a sequence of parameters, and %(name)s a mapping: one of both is in a statement")
        else:
            parts.append(it.raw[2:-2] if is_named else count)
            count += 1
    return parts


def statement_of(sql: str, parameters: Any, style: str) -> Statement:
    """The one statement of a text, with places as these parameters need them. Fails with ProgrammingError (42601) where there is none or
    more than one, and for a text that no request can have."""
    if not isinstance(sql, str):
        raise InterfaceError(f"a statement is a text, and this is a {type(sql).__name__}")
    return prepared(sql, style, isinstance(parameters, Mapping), parameters is not None)


def insert_of(statement: Statement) -> Tuple[str, Optional[Statement]]:
    """An INSERT of one row of VALUES as the text up to its row, and the row; without a row where it is another statement."""
    found = [it if isinstance(it, Token) else Token("parameter", "?", "?") for it in statement.parts]
    begins = places(found, ("values", )) if statement.verb == "insert" else []
    if not begins:
        return "", None
    begin = begins[0] + 1
    depths = [depth for _, depth in with_depth(found[begin:])]
    row = Statement(statement.parts[begin:])
    is_one = len(depths) > 1 and found[begin].raw == "(" and all(depths[1:-1]) and found[-1].raw == ")" and depths[-1] == 0
    return line(found[:begin]), row if is_one and len(row.slots) == len(statement.slots) else None


def query_of(declare: Statement, literals: Sequence[str]) -> Statement:
    """The query of a DECLARE, with its values."""
    found = declare.tokens(literals)
    begins = places(found, ("for", ))
    return Statement(found[begins[0] + 1:] if begins else [])
