"""The messages of PostgreSQL's protocol 3.0: how those of the server are made, and how the client's bytes are cut into messages."""
import struct
from functools import lru_cache
from typing import Deque, List, NamedTuple, Optional, Sequence, Tuple

SSL_REQUEST, GSS_REQUEST, CANCEL_REQUEST, VERSION_3 = 80877103, 80877104, 80877102, 196608
START_BYTES, MESSAGE_BYTES = 10_000, 1 << 22
SIZES = {16: 1, 18: 1, 19: 64, 20: 8, 21: 2, 23: 4, 26: 4, 701: 8, 2205: 4}
PARSE_COMPLETE, BIND_COMPLETE, CLOSE_COMPLETE, NO_DATA = b"1\0\0\0\4", b"2\0\0\0\4", b"3\0\0\0\4", b"n\0\0\0\4"
EMPTY_QUERY, SUSPENDED, COPY_DONE = b"I\0\0\0\4", b"s\0\0\0\4", b"c\0\0\0\4"
READY = {status: b"Z\0\0\0\5" + status for status in (b"I", b"T", b"E")}


class Refused(Exception):
    """What a client is refused: SQLSTATE, text, a way out, what was found, and the place in the statement, from 1 on, or 0."""

    def __init__(self, code: str, text: str, hint: str = "", detail: str = "", position: int = 0) -> None:
        super().__init__(code, text)
        self.code, self.text, self.hint, self.detail, self.position = code, text, hint, detail, position


def message(kind: bytes, body: bytes = b"") -> bytes:
    return kind + struct.pack("!I", len(body) + 4) + body


def c_string(text: str) -> bytes:
    return text.replace("\0", " ").encode("utf-8", "replace") + b"\0"


def report(kind: bytes, severity: str, code: str, text: str, more: Sequence[Tuple[bytes, str]] = ()) -> bytes:
    """A message about a statement. `more` are further fields; those without a text are left out."""
    fields = b"S" + c_string(severity) + b"V" + c_string(severity) + b"C" + c_string(code) + b"M" + c_string(text)
    return message(kind, fields + b"".join(name + c_string(it) for name, it in more if it) + b"\0")


def error(fault: Refused, severity: str = "ERROR") -> bytes:
    position = str(fault.position) if fault.position else ""
    return report(b"E", severity, fault.code, fault.text, [(b"D", fault.detail), (b"H", fault.hint), (b"P", position)])


def warning(code: str, text: str) -> bytes:
    return report(b"N", "WARNING", code, text)


@lru_cache(1024)
def complete(tag: str) -> bytes:
    return message(b"C", c_string(tag))


def negotiated(options: Sequence[str]) -> bytes:
    """NegotiateProtocolVersion: 3.0 is spoken, and these options are not known."""
    return message(b"v", struct.pack("!II", VERSION_3, len(options)) + b"".join(map(c_string, options)))


def parameter_status(name: str, value: str) -> bytes:
    return message(b"S", c_string(name) + c_string(value))


def row_description(names: Sequence[str], oids: Sequence[int], formats: Sequence[int] = ()) -> bytes:
    """Names and types of an answer's columns. `formats` is empty, or has one entry for each column."""
    parts = [struct.pack("!H", len(names))]
    for at, (name, oid) in enumerate(zip(names, oids)):
        parts.append(c_string(name) + struct.pack("!IHIhih", 0, 0, oid, SIZES.get(oid, -1), -1, formats[at] if formats else 0))
    return message(b"T", b"".join(parts))


def parameter_description(oids: Sequence[int]) -> bytes:
    return message(b"t", struct.pack(f"!H{len(oids)}I", len(oids), *oids))


def copy_out(width: int) -> bytes:
    return message(b"H", struct.pack(f"!BH{width}H", 0, width, *[0] * width))


def field(text: Optional[str], oid: int, is_binary: bool) -> Optional[bytes]:
    """A field of an answer that the gateway makes itself."""
    if text is None or not is_binary:
        return None if text is None else text.encode()
    if oid == 20:
        return struct.pack("!q", int(text))
    if oid == 16:
        return b"\1" if text == "t" else b"\0"
    return struct.pack("!d", float(text)) if oid == 701 else text.encode()


def data_row(fields: Sequence[Optional[bytes]]) -> bytes:
    parts = [b"\xff\xff\xff\xff" if it is None else struct.pack("!I", len(it)) + it for it in fields]
    return message(b"D", struct.pack("!H", len(parts)) + b"".join(parts))


def cut(data: bytes, at: int, inbox: Deque[Tuple[int, bytes]]) -> int:
    """Cuts whole messages into `inbox`, each its kind and body. Returns where the rest begins. Fails with Refused where a message is too
    long or has no length."""
    size = len(data)
    while size - at >= 5:
        length = int.from_bytes(data[at + 1:at + 5], "big")
        if not 4 <= length <= MESSAGE_BYTES:
            raise Refused("08P01", f"a message has a length of {length}: 4 to {MESSAGE_BYTES:,} bytes are taken",
                          "send the values in smaller statements")
        if size - at <= length:
            break
        inbox.append((data[at], data[at + 5:at + 1 + length]))
        at += length + 1
    return at


class Body:
    """Reads the parts of a message's body. Fails with Refused (08P01) where it is cut short or is no UTF-8 (22021)."""

    def __init__(self, data: bytes) -> None:
        self.data, self.at = data, 0

    def text(self) -> str:
        end = self.data.find(b"\0", self.at)
        if end < 0:
            raise unreadable()
        found, self.at = self.data[self.at:end], end + 1
        return decoded(found)

    def number(self, form: str = "!h") -> int:
        return self.numbers(form[1:], 1)[0]

    def numbers(self, form: str, count: int) -> Tuple[int, ...]:
        try:
            found = struct.unpack_from(f"!{count}{form}", self.data, self.at)
        except struct.error:
            raise unreadable()
        self.at += struct.calcsize(f"!{count}{form}")
        return found

    def bytes(self, count: int) -> bytes:
        if count < 0 or self.at + count > len(self.data):
            raise unreadable()
        self.at += count
        return self.data[self.at - count:self.at]


class Bind(NamedTuple):
    """A Bind message: names of portal and statement, values with their formats (None is NULL), and the formats of the outputs."""
    portal: str
    statement: str
    values: List[Tuple[Optional[bytes], int]]
    wanted: Tuple[int, ...]


def read_bind(body: bytes) -> Bind:
    """Reads a Bind message. Fails with Refused."""
    end = body.find(b"\0")
    at = body.find(b"\0", end + 1) + 1
    if end < 0 or not at:
        raise unreadable()
    portal, statement = decoded(body[:end]), decoded(body[end + 1:at - 1])
    try:
        formats, at = read_formats(body, at)
        count = body[at] << 8 | body[at + 1]
        at += 2
        if len(formats) not in (0, 1, count):
            raise Refused("08P01", f"bind message has {len(formats)} parameter formats but {count} parameters")
        values: List[Tuple[Optional[bytes], int]] = []
        for number in range(count):
            size = int.from_bytes(body[at:at + 4], "big", signed=True)
            at += 4
            value = None if size == -1 else body[at:at + size]
            if value is not None and len(value) != size or at > len(body):
                raise unreadable()
            at += max(size, 0)
            values.append((value, 0 if not formats else formats[0] if len(formats) == 1 else formats[number]))
        return Bind(portal, statement, values, read_formats(body, at)[0])
    except (struct.error, IndexError):
        raise unreadable()


def read_formats(body: bytes, at: int) -> Tuple[Tuple[int, ...], int]:
    """Some formats, and the place after them."""
    count = body[at] << 8 | body[at + 1]
    if not count:
        return (), at + 2
    found = struct.unpack_from(f"!{count}h", body, at + 2)
    if any(it not in (0, 1) for it in found):
        raise Refused("22023", "a format is 0 (text) or 1 (binary)")
    return found, at + 2 + 2 * count


def unreadable() -> Refused:
    return Refused("08P01", "the message could not be read: it is shorter than what it should hold")


def decoded(data: bytes) -> str:
    try:
        return data.decode()
    except UnicodeDecodeError:
        raise Refused("22021", "the text is not UTF-8", "SET client_encoding TO 'UTF8', which is the only one")
