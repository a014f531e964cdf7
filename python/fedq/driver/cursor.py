"""Statements and their rows."""
from __future__ import annotations

import collections
import itertools
from typing import TYPE_CHECKING, Any, Deque, Iterable, Iterator, List, Optional, Sequence, Tuple

from ..errors import InterfaceError, ProgrammingError, error_of
from ..lines import MOST_BYTES, VALUES, Reply, Value, unescaped
from .parameters import Statement, insert_of, query_of, statement_of

if TYPE_CHECKING:
    from .connection import Connection

Row = Tuple[Value, ...]
Column = Tuple[str, str, None, None, None, None, None]
# What refuses the query of an engine's cursor, and not always the query: it can fault, or is too large or has too many cursors beside it.
NO_CURSOR = ("0A000", "54000")
OBJECTS = ("create", "drop")
COUNTED = ("SELECT", "FETCH", "INSERT", "UPDATE", "DELETE")


class Cursor:
    """Executes statements, and returns rows as tuples.

    A query is read as it is fetched, `itersize` rows at a time: neither side holds a large answer whole, but for one with ORDER BY,
    groups, DISTINCT or UNION ALL, which the engine holds, and one that can fault (arithmetic and `sum`), which is sent whole. While rows
    are left the tables that the query reads are leased: another session's write to them is refused by 55006. It ends with the last row,
    `close`, or the next `execute`; a write of this connection has the rest read first."""

    def __init__(self, connection: "Connection") -> None:
        self.connection, self.is_open = connection, True
        self.arraysize, self.itersize = 1, 2000
        self.lastrowid = None
        self.declared: Optional[str] = None
        self.later: Deque[Iterator[Row]] = collections.deque()
        self.forget()

    def forget(self) -> None:
        """As before the first statement."""
        self.description: Optional[List[Column]] = None
        self.rowcount = -1
        self.types: Sequence[str] = ()
        self.fetched = self.asked = 0
        self.rows: Optional[Iterator[Row]] = None
        self.later.clear()

    # ----------------------------------------------------------------------------------------------------------------------- statements

    def execute(self, sql: str, parameters: Any = None) -> "Cursor":
        """Executes one statement, with a sequence or a mapping of parameters for its places, and returns itself."""
        statement = statement_of(sql, parameters, self.connection.paramstyle)
        with self.connection.lock:
            self.check()
            self.end()
            self.forget()
            literals = statement.literals(parameters)
            if statement.verb == "select":
                self.query(statement, literals)
            else:
                self.do(statement, literals)
        return self

    def query(self, query: Statement, literals: List[str]) -> None:
        """Executes a query by a cursor of the engine's, or, where it may have none, as it is."""
        connection, text = self.connection, query.text(literals)
        name = f'"fedq {next(connection.numbers)}"'
        declare = f"Q DECLARE {name} CURSOR FOR {text}"
        if len(declare) * 4 > MOST_BYTES and len(declare.encode()) + len("1 ") > MOST_BYTES:
            return self.query_whole(query, literals, text)
        self.declared = name
        begun, first = connection.ask(declare, self.request())
        if begun.code:
            self.declared = None
            if begun.code not in NO_CURSOR:
                raise error_of(begun.code, begun.name, text)
            return self.query_whole(query, literals, text)
        connection.reading.add(self)
        self.described(first, query, literals, text)
        self.rows = self.batch(first)

    def query_whole(self, query: Statement, literals: List[str], text: str) -> None:
        """Executes a query whose answer comes whole. Nothing is leased then: where others may change the tables the types before it have
        to be those after it."""
        connection = self.connection
        before = connection.types.get(query.key(literals)) if connection.is_shared else None
        while True:
            reply = connection.must(f"Q {text}", text)
            self.described(reply, query, literals, text)
            if not connection.is_shared or self.types == before:
                break
            before = self.types
        self.rows, self.rowcount = rows_of(reply.rows, self.types), count_of(reply)

    def do(self, statement: Statement, literals: List[str]) -> None:
        """Executes what is no query."""
        connection, verb, text = self.connection, statement.verb, statement.text(literals)
        reply = self.sent(text)
        self.rowcount = count_of(reply)
        if verb == "declare":
            connection.declared[statement.words[1]] = query_of(statement, literals)
        elif verb == "fetch":
            query = connection.declared[statement.tokens(literals)[-1].value]
            self.described(reply, query, [], text)
            self.rows = rows_of(reply.rows, self.types)
        elif verb != "close":
            self.wrote(verb)

    def sent(self, text: str) -> Reply:
        """The reply to a statement. Where cursors of this connection lease what it writes, the rest of their rows is read first."""
        reply = self.connection.ask(f"Q {text}")[0]
        if reply.code == "55006" and self.connection.hold_all():
            reply = self.connection.ask(f"Q {text}")[0]
        if reply.code:
            raise error_of(reply.code, reply.name, text)
        return reply

    def wrote(self, verb: str) -> None:
        """Notes that a statement with this verb was done."""
        self.connection.has_written = True
        if verb in OBJECTS:
            self.connection.types.clear()

    def described(self, reply: Reply, query: Statement, literals: List[str], text: str) -> None:
        """Takes the names of a query's reply, and finds the types."""
        if reply.code:
            self.declared = None
            raise error_of(reply.code, reply.name, text)
        names = reply.names or []
        self.types = self.connection.types_of(query, literals, len(names))
        self.description = [(unescaped(name), kind, None, None, None, None, None) for name, kind in zip(names, self.types)]

    def executemany(self, sql: str, many: Iterable[Any]) -> "Cursor":
        """Executes a statement for each of these parameters, and returns itself. An INSERT of one row of VALUES is one statement with all
        rows, so that they are written whole or not at all; more than 1,048,576 bytes of them are several statements, and each is
        whole. `rowcount` is the sum, also where one is refused."""
        given = list(many)
        with self.connection.lock:
            self.check()
            self.end()
            self.forget()
            self.rowcount = total = 0
            if not given:
                return self
            statement = statement_of(sql, given[0], self.connection.paramstyle)
            if statement.verb in ("select", "fetch", "declare"):
                raise ProgrammingError(f"42601 executemany takes no {statement.verb.upper()}: use execute", "42601", "syntax_error")
            head, row = insert_of(statement)
            if row:
                texts = lines_of(head, [row.text(row.literals(it)) for it in given])
            else:
                texts = [statement.text(statement.literals(it)) for it in given]
            for it in texts:
                reply = self.sent(it)
                self.wrote(statement.verb)
                total += max(0, count_of(reply))
                self.rowcount = total
        return self

    def setinputsizes(self, _sizes: Any) -> None:
        """Does nothing: values are bound by their types."""
        self.check()

    def setoutputsize(self, _size: int, _column: Optional[int] = None) -> None:
        """Does nothing: each value comes whole."""
        self.check()

    # ----------------------------------------------------------------------------------------------------------------------------- rows

    def fetchone(self) -> Optional[Row]:
        """The next row, or None."""
        return next(self, None)

    def fetchmany(self, size: Optional[int] = None) -> List[Row]:
        """The next rows, at most `size` or else `arraysize`."""
        self.check_rows()
        return [*itertools.islice(self, self.arraysize if size is None else size)]

    def fetchall(self) -> List[Row]:
        """All rows that are left."""
        self.check_rows()
        return [*self]

    def __iter__(self) -> "Cursor":
        return self

    def __next__(self) -> Row:
        self.check_rows()
        while True:
            for row in self.rows or ():
                return row
            if not self.advance():
                raise StopIteration

    def advance(self) -> bool:
        """Goes to the next rows that came together, where there are any."""
        with self.connection.lock:
            if self.later:
                self.rows = self.later.popleft()
                return True
            if self.declared:
                self.rows = self.fetch()
                return True
            return False

    def hold(self) -> None:
        """Reads the rest of the rows, so that the query leases nothing."""
        with self.connection.lock:
            while self.declared:
                self.later.append(self.fetch())

    def request(self) -> str:
        """The request for the next rows."""
        self.asked = max(1, self.itersize, self.arraysize)
        return f"Q FETCH {self.asked} FROM {self.declared}"

    def fetch(self) -> Iterator[Row]:
        """Fetches the next rows. A FETCH that is refused has ended its cursor."""
        reply = self.connection.ask(self.request())[0]
        if reply.code:
            self.declared = None
            raise error_of(reply.code, reply.name)
        return self.batch(reply)

    def batch(self, reply: Reply) -> Iterator[Row]:
        """The rows of a FETCH. The last ones end the engine's cursor."""
        count = count_of(reply)
        self.fetched += count
        if count < self.asked:
            self.end()
            self.rowcount = self.fetched
        return rows_of(reply.rows, self.types)

    # ------------------------------------------------------------------------------------------------------------------------------ its end

    def end(self) -> None:
        """Ends the engine's cursor, and with it the leases."""
        if self.declared:
            self.connection.tell(f"Q CLOSE {self.declared}")
            self.declared = None

    def check(self) -> None:
        """Fails with InterfaceError where it, or its connection, is closed."""
        if not self.is_open:
            raise InterfaceError("the cursor is closed")
        self.connection.check()

    def check_rows(self) -> None:
        """Fails with ProgrammingError (24000) where no query was executed."""
        self.check()
        if self.rows is None:
            raise ProgrammingError("24000 no query was executed: there are no rows to fetch", "24000", "invalid_cursor_state")

    def close(self) -> None:
        """Ends it. A second close does nothing."""
        if self.is_open:
            with self.connection.lock:
                self.end()
                self.is_open = False
                self.forget()

    def __enter__(self) -> "Cursor":
        return self

    def __exit__(self, *_fault: object) -> None:
        self.close()

    def __del__(self) -> None:
        # (this may be called within a request: the engine's cursor is closed with the next one)
        if getattr(self, "declared", None):
            self.connection.left.append(self.declared)


def count_of(reply: Reply) -> int:
    """The number of rows in a tag, or -1."""
    verb, _, last = reply.tag.partition(" ")
    return int(last.rpartition(" ")[2]) if verb in COUNTED else -1


def rows_of(text: Optional[str], types: Sequence[str]) -> Iterator[Row]:
    """The rows of a reply as tuples, made one by one."""
    if text is None:
        return iter(())
    values = [VALUES[it] for it in types]
    if len(values) == 1:
        only = values[0]
        return ((only(it), ) for it in text.split("\n"))
    return (tuple([value(it) for value, it in zip(values, row.split("\t"))]) for row in text.split("\n"))


def lines_of(head: str, rows: Sequence[str]) -> List[str]:
    """The texts of an INSERT of rows, as few as their lengths allow."""
    room = MOST_BYTES - len("1 Q ") - len(head.encode()) - 1
    texts: List[str] = []
    begin = used = 0
    for at, row in enumerate(rows):
        size = len(row.encode()) + 1
        if used + size > room and at > begin:
            texts.append(f"{head} {','.join(rows[begin:at])}")
            begin, used = at, 0
        used += size
    return [*texts, f"{head} {','.join(rows[begin:])}"]
