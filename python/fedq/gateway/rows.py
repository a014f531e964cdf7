"""Rows: the program's R lines as PostgreSQL's DataRow and CopyData messages. Whole pieces are cut into fields at once, and worked on by
columns, so that there is no step of Python for each row; only fields with a backslash are looked at one by one."""
import re, struct
from operator import add, itemgetter
from typing import Dict, Generic, Iterator, List, Sequence, Tuple, TypeVar, Union

BIGINT, TEXT, BOOLEAN = 20, 25, 16
NULL = b"\\N"
SLICE = 1 << 15
NULL_LENGTH = b"\xff\xff\xff\xff"
ESCAPE = re.compile(rb"\\(.)", re.S)
MEANT = {b"t": b"\t", b"n": b"\n", b"r": b"\r", b"\\": b"\\"}
TRUE_BYTE = {b"t": b"\1", b"f": b"\0"}


class Lengths(dict):
    """The four bytes of a length, made once for each."""

    def __missing__(self, size: int) -> bytes:
        made = struct.pack("!I", size)
        if len(self) < 100_000:
            self[size] = made
        return made


class Heads(dict):
    """How a message of rows begins: its kind, length and number of columns, for the bytes of its fields."""

    def __init__(self, width: int) -> None:
        super().__init__()
        self.width = width

    def __missing__(self, size: int) -> bytes:
        made = struct.pack("!cIH", b"D", size + 4 * self.width + 6, self.width)
        if len(self) < 100_000:
            self[size] = made
        return made


class CopyHeads(dict):
    """How a CopyData message begins, for the bytes of its line with LF."""

    def __missing__(self, size: int) -> bytes:
        made = struct.pack("!cI", b"d", size + 5)
        if len(self) < 100_000:
            self[size] = made
        return made


LENGTHS, COPY_HEADS = Lengths(), CopyHeads()
HEADS: Dict[int, Heads] = {}
SHORT = 2048
Piece = TypeVar("Piece", bytes, str)


class Tables(Generic[Piece]):
    """What is put around fields: their lengths, the heads of rows by the bytes of their fields, the length of NULL, and nothing."""
    __slots__ = ("lengths", "heads", "null", "nothing")

    def __init__(self, lengths: Union[List[Piece], Dict[int, Piece]], heads: Union[List[Piece], Dict[int, Piece]], null: Piece,
                 nothing: Piece) -> None:
        self.lengths, self.heads, self.null, self.nothing = lengths, heads, null, nothing


# The heads of short fields and rows, by width: a list is faster than a dictionary. Texts of one character for each byte are faster still,
# since Python joins texts in half the time in which it joins bytes.
SHORT_LENGTHS = [LENGTHS[it] for it in range(SHORT)]
SHORT_TEXTS = [it.decode("latin-1") for it in SHORT_LENGTHS]
SHORT_TABLES: Dict[int, Tables[bytes]] = {}
TEXT_TABLES: Dict[int, Tables[str]] = {}


def heads_of(width: int) -> Heads:
    return HEADS.get(width) or HEADS.setdefault(width, Heads(width))


def short_tables(width: int) -> Tables[bytes]:
    """For short fields as bytes, in rows of this width."""
    if width not in SHORT_TABLES:
        heads = [heads_of(width)[it] for it in range(SHORT)]
        SHORT_TABLES[width] = Tables(SHORT_LENGTHS, heads, NULL_LENGTH, b"")
        TEXT_TABLES[width] = Tables(SHORT_TEXTS, [it.decode("latin-1") for it in heads], NULL_LENGTH.decode("latin-1"), "")
    return SHORT_TABLES[width]


def text_tables(width: int) -> Tables[str]:
    """For short fields as texts of one character for each byte, in rows of this width."""
    short_tables(width)
    return TEXT_TABLES[width]


def unescaped(field: bytes) -> bytes:
    return ESCAPE.sub(lambda it: MEANT.get(it[1], it[0]), field)


def slices(piece: bytes) -> Iterator[bytes]:
    """Whole lines of a piece, little enough at a time that what is made of them stays in the processor's cache."""
    at, size = 0, len(piece)
    while size - at > 2 * SLICE:
        end = piece.find(b"\n", at + SLICE) + 1
        yield piece[at:end]
        at = end
    if at < size:
        yield piece[at:] if at else piece


def data_rows(piece: bytes, prefix: bytes, width: int, formats: Sequence[int] = (), oids: Sequence[int] = ()) -> Tuple[bytes, int]:
    """The DataRow messages of some whole R lines that begin with `prefix`, and how many rows there are. `formats` has 1 for
    each column that is requested in binary."""
    if len(piece) < 4096 and b"\\" not in piece and not formats and piece.count(b"\n") == 1:
        return one_row(piece[len(prefix):-1].split(b"\t")), 1
    if not formats and b"\\" not in piece:
        # (what comes before each row becomes a column of its own, since one character is replaced by one much faster than several)
        texts = piece[:-1].decode("latin-1").replace("\n", "\t").split("\t")
        try:
            return joined(texts, 1, (), width, text_tables(width), oids).encode("latin-1"), len(texts) // (width + 1)
        except IndexError:  # (a field or a row is longer)
            pass
    fields = piece[len(prefix):-1].replace(b"\n" + prefix, b"\t").split(b"\t")
    nulls = without_escapes(fields) if b"\\" in piece else ()
    for at, (form, oid) in enumerate(zip(formats, oids)):
        if form and oid != TEXT:
            fields[at::width] = binary(fields[at::width], oid)
    kinds = () if formats or nulls else oids
    try:
        return joined(fields, 0, nulls, width, short_tables(width), kinds), len(fields) // width
    except IndexError:
        return joined(fields, 0, nulls, width, Tables(LENGTHS, heads_of(width), NULL_LENGTH, b""), kinds), len(fields) // width


def joined(fields: List[Piece], left_out: int, nulls: Sequence[int], width: int, tables: Tables[Piece], oids: Sequence[int]) -> Piece:
    """The DataRow messages of these fields. Those at `nulls` are NULL, and the first of each row are left out; made column by
    column. `oids` may be empty. Lengths are not looked up where all of a column are the same, as those of numbers often are, and are not
    counted where they are known, as those of booleans."""
    step, of_row = 2 * width + 1, width + left_out
    count = len(fields) // of_row
    row, kept, same, totals = [tables.nothing] * step, [], 0, None
    for at in range(width):
        column = fields[at + left_out::of_row]
        is_one = bool(oids) and oids[at] == BOOLEAN
        sizes = () if is_one else list(map(len, column))
        first = 1 if is_one else sizes[0]
        if is_one or first == sizes[-1] == sizes[count >> 1] and sizes.count(first) == count:
            same += first
            row[2 * at + 1] = tables.lengths[first]
        else:
            totals = sizes if totals is None else list(map(add, totals, sizes))
            kept.append((2 * at + 1, found(tables.lengths, sizes)))
        kept.append((2 * at + 2, column))
    if totals is None:
        row[0] = tables.heads[same]
    elif isinstance(tables.heads, list):
        kept.append((0, found(tables.heads[same:], totals)))
    else:
        kept.append((0, [tables.heads[same + it] for it in totals]))
    parts = row * count
    for at, column in kept:
        parts[at::step] = column
    for at in nulls:
        parts[at // width * step + 2 * (at % width) + 1] = tables.null
    return tables.nothing.join(parts)


def found(table: Union[List[Piece], Dict[int, Piece]], sizes: List[int]) -> Sequence[Piece]:
    """The entries of a table for these sizes."""
    return itemgetter(*sizes)(table) if len(sizes) > 1 else [table[sizes[0]]]


def one_row(fields: List[bytes]) -> bytes:
    """The DataRow message of fields that are not NULL."""
    return heads_of(len(fields))[sum(map(len, fields))] + b"".join([LENGTHS[len(it)] + it for it in fields])


def without_escapes(fields: List[bytes]) -> List[int]:
    """Takes the escapes out of fields, in place. Returns the places of NULL, whose fields become empty. (NULL is looked for first:
    `\\\\N` is a text.)"""
    nulls = []
    for at in [at for at, it in enumerate(fields) if b"\\" in it]:
        if fields[at] == NULL:
            nulls.append(at)
            fields[at] = b""
        else:
            fields[at] = unescaped(fields[at])
    return nulls


def binary(column: List[bytes], oid: int) -> List[bytes]:
    """A column's fields in binary; what is empty is NULL and stays so."""
    if oid == BOOLEAN:
        return [TRUE_BYTE.get(it, it) for it in column]
    if oid == BIGINT:
        if b"" in column:
            return [struct.pack("!q", int(it)) if it else it for it in column]
        return list(struct.unpack("8s" * len(column), struct.pack(f"!{len(column)}q", *map(int, column))))
    return column


def copy_rows(piece: bytes, prefix: bytes) -> Tuple[bytes, int]:
    """CopyData messages of some whole R lines, one for each row: the program's fields are in COPY's text form already."""
    lines = piece[len(prefix):-1].split(b"\n" + prefix)
    return copy_lines(lines), len(lines)


def csv_rows(piece: bytes, width: int) -> Tuple[bytes, int]:
    """CopyData messages of some whole R lines in the form of CSV."""
    step = width + 1
    fields = list(map(csv_field, piece[:-1].replace(b"\n", b"\t").split(b"\t")))
    lines = [b",".join(fields[at + 1:at + step]) for at in range(0, len(fields), step)]
    return copy_lines(lines), len(lines)


def copy_lines(lines: List[bytes]) -> bytes:
    """CopyData messages of lines without their LF."""
    parts = [b""] * (2 * len(lines))
    parts[0::2] = list(map(COPY_HEADS.__getitem__, map(len, lines)))
    parts[1::2] = lines
    # (the LF of a line comes before the next message's head)
    parts[2::2] = [b"\n" + it for it in parts[2::2]]
    return b"".join(parts) + b"\n" if lines else b""


SPECIAL = re.compile(rb'[",\r\n]')


def csv_field(field: bytes) -> bytes:
    """One field as a field of CSV: NULL is empty, and the empty text is quoted, as PostgreSQL does."""
    if field == NULL:
        return b""
    if b"\\" in field:
        field = unescaped(field)
    if not field or field == b"\\." or SPECIAL.search(field):
        return b'"' + field.replace(b'"', b'""') + b'"'
    return field
