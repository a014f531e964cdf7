"""The names and types of a query's outputs before it runs: the names by the rule of docs/LANGUAGE.md, the types by a request to the program."""
from typing import List, Mapping, Optional, Sequence, Tuple

from ..sql import ENDS_ITEMS, RESERVED, Token, asked_type, items, with_depth
from .engine import Engine
from .objects import Object
from .sentences import refusal
from .statements import Form

NO_ALIAS = ENDS_ITEMS | {"join", "inner", "left", "cross", "on", "set", "values", "select", "as"}
NAMES = ("word", "quoted")
VALUES_AS_WORDS = {"null", "true", "false"}
BIGINT, TEXT, BOOLEAN = 20, 25, 16
JUDGED, WRONG_TYPE = "54000", "42804"


def entries(found: Sequence[Token]) -> List[Tuple[str, str]]:
    """Pairs of the name of an entry of the first core's FROM, and its table."""
    pairs, is_from = [], False
    for at, (it, depth) in enumerate(with_depth(found)):
        before = found[at - 1] if at else None
        if depth == 0 and it.kind == "word" and it.value in ENDS_ITEMS:
            if it.value == "union":
                break
            is_from = it.value == "from"
        elif is_from and depth == 0 and it.kind in NAMES and before and (before.raw == "," or before.kind == "word"
                                                                         and before.value in ("from", "join")):
            pairs.append((alias(found[at + 1:at + 3]) or it.value, it.value))
    return pairs


def alias(behind: Sequence[Token]) -> str:
    """The alias after a table's name; empty where there is none."""
    if len(behind) > 1 and (behind[0].kind, behind[0].value) == ("word", "as"):
        return behind[1].value
    is_alias = bool(behind) and (behind[0].kind == "quoted" or behind[0].kind == "word" and behind[0].value not in NO_ALIAS)
    return behind[0].value if is_alias else ""


def is_value_end(token: Token) -> bool:
    """Whether a value may end at this token, so that a name after it is its label."""
    if token.kind == "word":
        return token.value not in RESERVED - VALUES_AS_WORDS
    return token.kind in ("quoted", "number", "text") or token.raw == ")"


def is_label(token: Token) -> bool:
    return token.kind == "quoted" or token.kind == "word" and token.value not in RESERVED and token.value != "unknown"


def name_of(item: Sequence[Token]) -> str:
    """The output's name of an item that is no asterisk."""
    if len(item) > 2 and (item[-2].kind, item[-2].value) == ("word", "as"):
        return item[-1].value
    if len(item) > 1 and is_label(item[-1]) and is_value_end(item[-2]):
        return item[-1].value
    while len(item) > 1 and item[0].raw == "(" and item[-1].raw == ")":
        item = item[1:-1]
    if len(item) == 1 and item[0].kind in NAMES and (item[0].kind == "quoted" or item[0].value not in RESERVED):
        return item[0].value
    if len(item) == 3 and item[1].raw == ".":
        return item[2].value
    is_call = len(item) > 2 and item[0].kind in NAMES and item[1].raw == "(" and item[-1].raw == ")"
    if is_call and not any(depth == 0 for _, depth in list(with_depth(item))[2:-1]):
        return item[0].value
    return "?column?"


def names_of(found: Sequence[Token], tables: Mapping[str, Object]) -> Optional[List[str]]:
    """The names of the outputs, or None where a table is not known."""
    result: List[str] = []
    for item in items(found):
        if item and item[-1].raw == "*" and len(item) in (1, 3):
            chosen = [tables.get(table) for name, table in entries(found) if len(item) == 1 or name == item[0].value]
            if None in chosen or not chosen:
                return None
            result += [column.name for table in chosen for column in table.columns]
        else:
            result.append(name_of(item))
    return result


async def learn(form: Form, found: Sequence[Token], engine: Engine, sid: int, tables: Mapping[str, Object]) -> bool:
    """Finds the names and types of a query's outputs by two requests a column, which the program judges and does not run. Returns False
    where the program would refuse the query, or its outputs cannot be counted."""
    if form.types is not None:
        return True
    names = names_of(found, tables)
    if not names:
        return False
    asked = [(at, literal) for at in range(len(names)) for literal in ("1", "'x'")]
    waiting = [engine.ask(sid, b"Q " + asked_type(found, len(names), at, literal).encode()) for at, literal in asked]
    codes = [(await it).code for it in waiting]
    if "57014" in codes:
        raise refusal("57014", "")
    if set(codes) - {JUDGED, WRONG_TYPE}:
        return False
    # (a column of NULLs alone could be of each type: it is a text)
    form.types = tuple(TEXT if codes[2 * at + 1] == JUDGED else BIGINT if codes[2 * at] == JUDGED else BOOLEAN for at in range(len(names)))
    form.names = tuple(names)
    return True
