"""A prepared query in one pass. Where Bind, Describe, Execute and Sync came together, and the query has run before with values of these
kinds, its request line is made of the bytes of Bind, and no message is looked at by itself. All else goes the long way."""
from typing import TYPE_CHECKING, Deque, Dict, List, NamedTuple, Optional, Sequence, Tuple

from .engine import Request
from .messages import BIND_COMPLETE, Refused, read_formats
from .output import Output, all_formats, described_by
from .parameters import NUMERIC, TEXTS, WHOLE_NUMBERS
from .statements import ENGINE, Form, Statement
from .transactions import IDLE

if TYPE_CHECKING:
    from .extended import Extended, Prepared

DESCRIBE_PORTAL, EXECUTE_ALL, SYNC = (68, b"P\0"), (69, b"\0\0\0\0\0"), (83, b"")
MOST_TAILS = 16


def count_behind(inbox: Deque[Tuple[int, bytes]]) -> int:
    """How many messages of the inbox belong to a Bind: 3 for Describe, Execute and Sync, 2 for Execute and Sync, else 0."""
    count = len(inbox)
    if count > 2 and inbox[0] == DESCRIBE_PORTAL and inbox[1] == EXECUTE_ALL and inbox[2] == SYNC:
        return 3
    return 2 if count > 1 and inbox[0] == EXECUTE_ALL and inbox[1] == SYNC else 0


def plain(value: bytes, form: int, oid: int) -> Optional[bytes]:
    """A value as its literal, where that is a text without quotes or a whole number without a sign; None for all others."""
    if oid in TEXTS:
        if b"'" in value or b"\n" in value or b"\0" in value:
            return None
        if not value.isascii():
            try:
                value.decode()
            except UnicodeDecodeError:
                return None
        return b"'%s'" % value
    if oid not in WHOLE_NUMBERS and oid != NUMERIC:
        return None
    if form:
        number = int.from_bytes(value, "big", signed=oid != 26)
        return b"%d" % number if len(value) == WHOLE_NUMBERS.get(oid) and number >= 0 else None
    return value if value.isdigit() and len(value) < 19 and (value[0] != 48 or len(value) == 1) else None


class Tail(NamedTuple):
    """What the formats at the end of a Bind request: a form for each column, and the messages that answer Bind and Describe."""
    formats: Tuple[int, ...]
    described: bytes


class Quick:
    """A prepared query that ran. `head` is what a Bind of it has between the statement's name and the first value, `kinds` the format and
    the type of each parameter, `line` the request line with `%s` for each literal."""
    __slots__ = ("prepared", "version", "form", "head", "kinds", "line", "numbers", "tails")

    def __init__(self, prepared: "Prepared", form: Form, head: bytes, forms: Sequence[int]) -> None:
        self.prepared, self.version, self.form, self.head = prepared, prepared.version, form, head
        self.kinds = list(zip(forms, prepared.oids))
        self.line = b"Q " + b"%s".join(it.encode().replace(b"%", b"%%") for it in prepared.pieces)
        self.numbers = None if prepared.numbers == list(range(len(forms))) else prepared.numbers
        self.tails: Dict[bytes, Tail] = {}

    def request_line(self, body: bytes, at: int) -> Tuple[bytes, int]:
        """The request line with the values that begin at this place, and the place after them; an empty line where a value is not
        plain."""
        literals: List[bytes] = []
        for form, oid in self.kinds:
            size = int.from_bytes(body[at:at + 4], "big")
            at += 4 + size
            value = body[at - size:at]
            made = plain(value, form, oid) if len(value) == size else None
            if made is None:
                return b"", at
            literals.append(made)
        return self.line % tuple(literals if self.numbers is None else [literals[it] for it in self.numbers]), at

    def tail(self, tail: bytes) -> Optional[Tail]:
        """What these formats request; None where they are none."""
        found = self.tails.get(tail)
        if found is None and len(self.tails) < MOST_TAILS:
            try:
                wanted, end = read_formats(tail, 0)
                formats = all_formats(wanted, len(self.form.types))
            except (Refused, IndexError, ValueError):
                return None
            if end == len(tail):
                found = Tail(formats, BIND_COMPLETE + described_by(self.form.names, self.form.types, formats))
                self.tails[tail] = found
        return found


def learned(prepared: "Prepared", statement: Optional[Statement], body: bytes,
            values: Sequence[Tuple[Optional[bytes], int]]) -> Optional[Quick]:
    """A Quick for a prepared query, after a Bind of it that was taken; None where it has none."""
    if statement is None or statement.kind != ENGINE or statement.verb != "select" or prepared.model is None:
        return None
    if len(prepared.numbers) and any(value is None or plain(value, form, oid) is None for (value, form), oid in zip(values, prepared.oids)):
        return None
    at = body.find(b"\0", 1) + 1
    end = at + 4 + 2 * (body[at] << 8 | body[at + 1])
    return Quick(prepared, statement.form, body[at:end], [form for _, form in values])


def started(session: "Extended", body: bytes, inbox: Deque[Tuple[int, bytes]]) -> Optional[Tuple[Request, Output, int]]:
    """Sends the query of a Bind and of the messages after it. Returns the request, its output, and how many messages were taken; None where
    it has to go the long way."""
    count = count_behind(inbox)
    at = body.find(b"\0", 1) + 1
    quick = session.quicks.get(body[:at]) if count else None
    if quick is None or not body.startswith(quick.head, at) or quick.form.types is None or not session.is_quick(quick):
        return None
    line, end = quick.request_line(body, at + len(quick.head))
    tail = quick.tail(body[end:]) if line else None
    if tail is None:
        return None
    if session.transaction.status != IDLE:
        session.keep_run(Statement(ENGINE, "select", quick.prepared.model.found, line[2:], quick.form), tail.formats)
    session.outlet.add(tail.described if count == 3 else BIND_COMPLETE)
    output = Output(session.outlet, session.sid, tail.formats, True)
    output.oids, output.width, output.formats = quick.form.types, len(quick.form.types), tail.formats
    return session.engine.ask(session.sid, line, output.take), output, count
