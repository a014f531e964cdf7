"""Where the answer of one statement goes: to the client as it comes, or into a store that is emptied a number of rows at a time."""
import itertools, tempfile
from functools import lru_cache
from typing import List, Optional, Sequence, Tuple

from ..lines import unescaped
from .catalogue import Answer
from .messages import Refused, complete, data_row, field, row_description
from .outlet import Outlet, Pool
from .rows import TEXT, data_rows, slices

IN_MEMORY = 1 << 20
FULL = Refused("53400", "the answer waits for the client to read it, and more than --spool-bytes would wait",
               "read faster, ask for fewer rows, or give the gateway more --spool-bytes")


@lru_cache(4096)
def description(header: bytes, oids: Tuple[int, ...], formats: Tuple[int, ...]) -> bytes:
    """The RowDescription for an answer's header."""
    return row_description(names_in(header), oids, formats)


@lru_cache(4096)
def described_by(names: Tuple[str, ...], oids: Tuple[int, ...], formats: Tuple[int, ...]) -> bytes:
    """The RowDescription of columns with these names and types."""
    return row_description(names, oids, formats)


def names_in(header: bytes) -> List[str]:
    return [unescaped(it) for it in header.decode().split("\t")]


def all_formats(formats: Sequence[int], width: int) -> Tuple[int, ...]:
    """A format for each column: none are all text, one is for all."""
    if not any(formats):
        return ()
    if len(formats) not in (1, width):
        raise Refused("08P01", f"{len(formats)} formats are given for {width} columns")
    return tuple(formats) * width if len(formats) == 1 else tuple(formats)


class Output:
    """The rows of one statement, made into messages as they come."""

    def __init__(self, outlet: Outlet, sid: int, formats: Sequence[int], is_described: bool) -> None:
        self.outlet, self.asked, self.is_described, self.prefix = outlet, formats, is_described, b"%d R\t" % sid
        self.known: Optional[Sequence[int]] = None
        self.width, self.is_cut = 0, False
        self.oids: Tuple[int, ...] = ()
        self.formats: Tuple[int, ...] = ()

    def begin(self, header: bytes) -> None:
        self.width = header.count(b"\t") + 1
        self.oids = tuple(self.known) if self.known and len(self.known) == self.width else (TEXT, ) * self.width
        self.formats = all_formats(self.asked, self.width)
        if not self.is_described:
            self.outlet.add(description(header, self.oids, self.formats))

    def take(self, header: bytes, rows: bytes) -> None:
        """Takes whole R lines."""
        if not self.width:
            self.begin(header)
        for piece in slices(rows):
            if not self.is_cut:
                self.is_cut = not self.outlet.stream(data_rows(piece, self.prefix, self.width, self.formats, self.oids)[0])

    def end(self, header: Optional[bytes], tag: str) -> None:
        """The statement is done."""
        if self.is_cut:
            raise FULL
        if header is not None and not self.width:
            self.begin(header)
        self.outlet.add(complete(tag))

    def answer(self, answer: Answer) -> None:
        """Sends an answer that the gateway made itself."""
        formats = all_formats(self.asked, len(answer.names))
        if not self.is_described:
            self.outlet.add(row_description(answer.names, answer.oids, formats))
        for it in messages_of(answer, formats):
            if not self.outlet.stream(it):
                raise FULL
        self.outlet.add(complete(answer.tag))


def messages_of(answer: Answer, formats: Sequence[int]) -> List[bytes]:
    forms = formats or (0, ) * len(answer.names)
    return [data_row([field(it, oid, bool(form)) for it, oid, form in zip(row, answer.oids, forms)]) for row in answer.rows]


class Held(Output):
    """The rows of a portal that is emptied step by step: in memory while they are few, else in a file, within the bound of all files."""

    def __init__(self, pool: Pool, sid: int, formats: Sequence[int]) -> None:
        super().__init__(None, sid, formats, True)
        self.pool, self.size, self.tag = pool, 0, ""
        self.header: Optional[bytes] = None
        self.made: Optional[Answer] = None
        self.file = tempfile.SpooledTemporaryFile(IN_MEMORY)
        self.ready: List[bytes] = []

    def take(self, header: bytes, rows: bytes) -> None:
        if not self.width:
            self.begin(header)
        if self.is_cut or self.size + len(rows) > IN_MEMORY and not self.pool.has(len(rows)):
            self.is_cut = True
            return
        self.file.write(rows)
        self.size += len(rows)
        self.pool.used += len(rows)

    def end(self, header: Optional[bytes], tag: str) -> None:
        if self.is_cut:
            raise FULL
        if header is not None and not self.width:
            self.begin(header)
        self.header, self.tag = header, tag
        self.file.seek(0)

    def answer(self, answer: Answer) -> None:
        self.made, self.tag, self.width = answer, answer.tag, len(answer.names)
        self.ready = messages_of(answer, all_formats(self.asked, self.width))

    def described(self) -> Optional[bytes]:
        """The RowDescription; None where the statement returns no rows."""
        if self.made is not None:
            return row_description(self.made.names, self.made.oids, all_formats(self.asked, self.width))
        return None if self.header is None else description(self.header, self.oids, self.formats)

    def next(self, most: int) -> Tuple[bytes, int, bool]:
        """The next rows, at most this number (0: all), how many they are, and whether there may be more."""
        if self.made is not None:
            count = min(most or len(self.ready), len(self.ready))
            found, self.ready = self.ready[:count], self.ready[count:]
            return b"".join(found), count, bool(self.ready)
        lines = self.file.read() if not most else b"".join(itertools.islice(iter(self.file.readline, b""), most))
        if not lines:
            return b"", 0, False
        rows, count = data_rows(lines, self.prefix, self.width, self.formats, self.oids)
        return rows, count, bool(most) and self.file.tell() < self.size

    def close(self) -> None:
        self.file.close()
        self.pool.used -= self.size
        self.size = 0
