"""Parameters of prepared statements: each becomes a literal by its type alone, and never by what it looks like."""
import re
from typing import Dict, List, Mapping, Optional, Sequence, Tuple

from .. import sql
from ..sql import Token
from .engine import Engine
from .messages import Refused
from .objects import Object
from .outputs import names_of

WHOLE_NUMBERS = {20: 8, 21: 2, 23: 4, 26: 4}
TEXTS = (25, 1042, 1043, 18, 19)
BOOLEAN, NUMERIC, UNKNOWN = 16, 1700, (0, 705)
TRUTHS = {**dict.fromkeys(("t", "true", "1", "yes", "on", "y"), "TRUE"), **dict.fromkeys(("f", "false", "0", "no", "off", "n"), "FALSE")}
TYPE_NAMES = {17: "bytea", 700: "real", 701: "double precision", 1082: "date", 1083: "time", 1114: "timestamp",
              1184: "timestamp with time zone", 2950: "uuid",
              114: "json", 3802: "jsonb", 1186: "interval"}
# For each type a literal of it, used in place of a value in a request for types.
SAMPLES = {25: "'x'", 20: "1", 16: "TRUE"}


def is_known(oid: int) -> bool:
    return oid not in UNKNOWN


def literal(value: Optional[bytes], form: int, oid: int) -> str:
    """A parameter as a literal. Fails with Refused or Unsayable where there is none."""
    if value is None:
        return "NULL"
    if oid in WHOLE_NUMBERS or oid == NUMERIC:
        return whole_number(value, form, oid)
    if oid == BOOLEAN:
        return truth(value, form)
    if oid not in TEXTS and is_known(oid):
        name = TYPE_NAMES.get(oid, f"number {oid}")
        raise Refused("42846", f"a parameter of the type {name} has no literal: whole numbers, texts and booleans are all",
                      "give a text, as '2024-05-01', or a whole number")
    try:
        return sql.quoted_text(value.decode())
    except UnicodeDecodeError:
        raise Refused("22021", "a text of a parameter is not UTF-8")


def whole_number(value: bytes, form: int, oid: int) -> str:
    if form:
        if WHOLE_NUMBERS.get(oid) != len(value):
            raise Refused("22P03", "a binary parameter has another length than its type, or is a decimal",
                          "give a decimal's digits as text, or a whole number")
        return str(int.from_bytes(value, "big", signed=oid != 26))
    text = value.decode("ascii", "replace").strip()
    if not re.fullmatch(r"[+-]?[0-9]{1,40}", text):
        hint = "decimals are not there: give a whole number, or a text" if oid == NUMERIC else ""
        raise Refused("22P02", f'invalid input syntax for type bigint: "{text[:40]}"', hint)
    return sql.whole_text(text)


def truth(value: bytes, form: int) -> str:
    if form:
        if value not in (b"\0", b"\1"):
            raise Refused("22P03", "a binary boolean is one byte, 0 or 1")
        return "TRUE" if value == b"\1" else "FALSE"
    text = value.decode("ascii", "replace").strip().lower()
    if text not in TRUTHS:
        raise Refused("22P02", f'invalid input syntax for type boolean: "{text[:40]}"')
    return TRUTHS[text]


def places(found: Sequence[Token]) -> Dict[int, Tuple[str, int]]:
    """The parameters whose types the grammar says, by their numbers from 0: those after LIMIT, OFFSET and LIKE."""
    made = {}
    for before, it in zip(found, found[1:]):
        if it.kind == "parameter" and before.kind == "word" and before.value in ("limit", "offset", "like"):
            made[int(it.value[1:]) - 1] = (before.value, 25 if before.value == "like" else 20)
    return made


def without_null_patterns(found: Sequence[Token], literals: Sequence[str]) -> List[Token]:
    """Tokens in which `LIKE $n` is `IN ($n)` where the literal is NULL: both are unknown, and a pattern has to be a text."""
    made: List[Token] = []
    for before, it in zip([None, *found], found):
        is_pattern = it.kind == "parameter" and before is not None and (before.kind, before.value) == ("word", "like")
        if is_pattern and literals[int(it.value[1:]) - 1] == "NULL":
            made[-1:] = [Token("word", "IN", "in"), Token("mark", "(", "("), it, Token("mark", ")", ")")]
        else:
            made.append(it)
    return made


def samples(oids: Sequence[int]) -> List[str]:
    """Literals in place of values: of the type where it is known, else NULL."""
    return [SAMPLES[25] if oid in TEXTS else SAMPLES[20] if oid in WHOLE_NUMBERS or oid == NUMERIC else SAMPLES.get(oid, "NULL")
            for oid in oids]


async def infer(found: Sequence[Token], oids: List[int], engine: Engine, sid: int, tables: Mapping[str, Object]) -> None:
    """Finds the types, in place, that the client left open: the program judges a text, a whole number and a boolean in each place, and
    runs none of them. (A text where several fit, as in PostgreSQL.)"""
    for at, oid in enumerate(oids):
        if not is_known(oid):
            for own, sample in SAMPLES.items():
                others = samples(oids)
                others[at] = sample
                if await is_typed(sql.with_values(found, others), engine, sid, tables):
                    oids[at] = own
                    break
            else:
                oids[at] = 25


async def is_typed(found: Sequence[Token], engine: Engine, sid: int, tables: Mapping[str, Object]) -> bool:
    """Whether there is no fault of syntax, names or types. Nothing runs: the program judges nine cores, which it refuses by 54000 once
    types are judged."""
    text = judged_alone(found, tables)
    return bool(text) and (await engine.ask(sid, b"Q " + text.encode())).code == "54000"


def judged_alone(found: Sequence[Token], tables: Mapping[str, Object]) -> str:
    """A text that has the faults of syntax, names and types of a statement, and is refused for its number of cores where it has none.
    Empty where there is none."""
    verb = found[0].value if found else ""
    if verb == "select":
        return sql.line(sql.cores(found)) + nulls(len(names_of(found, tables) or [0]))
    if verb == "insert":
        return insert_judged(found, tables)
    if verb == "delete":
        return "SELECT NULL FROM " + sql.line(found[2:]) + nulls(1)
    return update_judged(found) if verb == "update" else ""


def nulls(width: int) -> str:
    return (" UNION ALL SELECT " + ", ".join(["NULL"] * width)) * sql.MOST_CORES


def insert_judged(found: Sequence[Token], tables: Mapping[str, Object]) -> str:
    """An INSERT with its rows as cores."""
    at = next(iter(sql.places(found, {"values", "select"})), len(found))
    head, body = sql.line(found[:at]), found[at:]
    if not body:
        return ""
    if body[0].value == "select":
        return f"{head} {sql.line(sql.cores(body))}" + nulls(len(names_of(body, tables) or [0]))
    rows = [it[1:-1] for it in parted(body[1:])]
    return f"{head} " + " UNION ALL ".join("SELECT " + sql.line(it) for it in rows) + nulls(len(parted(rows[0])))


def update_judged(found: Sequence[Token]) -> str:
    """An UPDATE as an INSERT of the values that it sets."""
    start = next(iter(sql.places(found, {"set"})), len(found))
    end = next(iter(sql.places(found, {"where"})), len(found))
    sets = parted(found[start + 1:end])
    columns, values = ", ".join(sql.line(it[:1]) for it in sets), ", ".join(sql.line(it[2:]) for it in sets)
    source = sql.line(list(found[1:start]) + list(found[end:]))
    return f"INSERT INTO {sql.line(found[1:2])} ({columns}) SELECT {values} FROM {source}" + nulls(len(sets))


def parted(found: Sequence[Token]) -> List[List[Token]]:
    """Tokens between commas outside parentheses."""
    parts: List[List[Token]] = [[]]
    for it, depth in sql.with_depth(found):
        if depth == 0 and it.raw == ",":
            parts.append([])
        else:
            parts[-1].append(it)
    return parts
