"""A session of an engine."""
from __future__ import annotations

import collections
import itertools
import os
import threading
import weakref
from typing import Any, Deque, Dict, List, Optional, Sequence, Tuple

from .. import errors
from ..engine import Transport
from ..errors import InterfaceError, NotSupportedError, error_of
from ..lines import MOST_BYTES, Reply
from ..sql import asked_type
from .cursor import Cursor
from .parameters import Statement

INTERRUPTED = " by an interrupt: the engine has no other way to end a statement"
MOST_KINDS = 10_000  # of queries whose types are kept
MOST_TOGETHER = 200  # requests that are sent before their replies are read


class Connection:
    """A session. Each statement is done at once, whole or not at all: there is nothing to commit, and what was written cannot be rolled
    back. Threads may share it: one statement is sent at a time."""
    Warning, Error, InterfaceError, DatabaseError = errors.Warning, errors.Error, errors.InterfaceError, errors.DatabaseError
    DataError, OperationalError, IntegrityError = errors.DataError, errors.OperationalError, errors.IntegrityError
    InternalError, ProgrammingError, NotSupportedError = errors.InternalError, errors.ProgrammingError, errors.NotSupportedError
    autocommit = True

    def __init__(self, transport: Transport, user: str, paramstyle: str = "qmark", is_shared: bool = False) -> None:
        """`is_shared` says that other clients may change the engine's objects meanwhile."""
        self.transport, self.user, self.paramstyle, self.is_shared = transport, user, paramstyle, is_shared
        self.lock, self.starter = threading.RLock(), os.getpid()
        self.closed, self.has_written = "", False
        self.types: Dict[Tuple[Any, ...], List[str]] = {}
        self.declared: Dict[str, Statement] = {}  # the queries of the cursors that statements declared
        self.numbers = itertools.count(1)
        self.reading: "weakref.WeakSet[Cursor]" = weakref.WeakSet()
        self.left: Deque[str] = collections.deque()  # the engine's cursors of cursors that are gone

    # ------------------------------------------------------------------------------------------------------------------------- the engine

    def check(self) -> None:
        """Fails with InterfaceError where the connection is closed, or is that of another process."""
        if self.closed:
            raise InterfaceError(f"the connection is closed{self.closed}")
        if os.getpid() != self.starter:
            raise InterfaceError("the connection was made before fork(): make one in this process")

    def ask(self, *requests: str) -> List[Reply]:
        """The replies to requests that are sent together. Fails with OperationalError where one is longer than a line may be (54000), and
        where the engine has gone; the connection is closed then, as it is where an interrupt comes while a reply is awaited."""
        with self.lock:
            self.check()
            for it in requests:
                if len(it) * 4 > MOST_BYTES and len(it.encode()) + len("1 ") > MOST_BYTES:
                    raise error_of("54000", f"a statement of {len(it.encode())} bytes is longer than a request may be ({MOST_BYTES})")
            gone = [f"Q CLOSE {self.left.popleft()}" for _ in range(len(self.left))]
            try:
                return self.transport.ask([*gone, *requests])[len(gone):]
            except BaseException as fault:
                self.failed(fault)
                raise

    def failed(self, fault: BaseException) -> None:
        """Closes the connection where the stream failed, or an interrupt left it within a request."""
        self.closed = f": {fault}" if isinstance(fault, errors.Error) else INTERRUPTED
        self.transport.abandon()

    def must(self, request: str, shown: str = "") -> Reply:
        """The reply to a request. Fails by the class of its code where it is refused."""
        reply = self.ask(request)[0]
        if reply.code:
            raise error_of(reply.code, reply.name, shown)
        return reply

    def tell(self, request: str) -> None:
        """Sends a request, whose reply nobody waits for."""
        with self.lock:
            if self.closed or os.getpid() != self.starter:
                return
            try:
                self.transport.tell([request])
            except BaseException as fault:
                self.failed(fault)
                if not isinstance(fault, errors.Error):  # (the next request reports what failed)
                    raise

    def types_of(self, query: Statement, literals: List[str], count: int) -> List[str]:
        """The types of a query's outputs. The engine is asked for them, and runs no query for that. It is asked once for each kind of query,
        and each time where others may change the tables; so a cursor of the query has to be open then."""
        key = query.key(literals)
        known = None if self.is_shared else self.types.get(key)
        if known is None or len(known) != count:
            known = self.asked_types(query, literals, count)
            if len(self.types) >= MOST_KINDS:
                self.types.clear()
            self.types[key] = known
        return known

    def asked_types(self, query: Statement, literals: List[str], count: int) -> List[str]:
        """The types of a query's outputs, as the engine reports them now. A column of NULLs alone is of texts."""
        found = query.tokens(literals)
        requests = [f"Q {asked_type(found, count, at, it)}" for at in range(count) for it in ("1", "'x'")]
        codes = []
        for at in range(0, len(requests), MOST_TOGETHER):
            for reply in self.ask(*requests[at:at + MOST_TOGETHER]):
                if reply.code not in ("54000", "42804"):
                    raise error_of(reply.code or "XX000", reply.name or f"the engine answered {reply.tag} to a query for types")
                codes.append(reply.code)
        pairs = zip(codes[::2], codes[1::2])
        return ["text" if text == "54000" else "integer" if number == "54000" else "boolean" for number, text in pairs]

    def hold_all(self) -> bool:
        """Has each cursor that is not read to its end read the rest of its rows, so that nothing of this connection's leases a table;
        whether there was one."""
        cursors = [it for it in self.reading if it.declared]
        for it in cursors:
            it.hold()
        return bool(cursors)

    # ---------------------------------------------------------------------------------------------------------------------------- PEP 249

    def cursor(self) -> Cursor:
        """A new cursor."""
        self.check()
        return Cursor(self)

    def execute(self, sql: str, parameters: Any = None) -> Cursor:
        """A new cursor that has executed this statement."""
        return self.cursor().execute(sql, parameters)

    def executemany(self, sql: str, many: Any) -> Cursor:
        """A new cursor that has executed this statement for each of these parameters."""
        return self.cursor().executemany(sql, many)

    def commit(self) -> None:
        """Does nothing: each statement was done at once."""
        self.check()
        self.has_written = False

    def rollback(self) -> None:
        """Does nothing where nothing was written since the last commit or rollback. Otherwise fails with NotSupportedError: what was
        written stays."""
        self.check()
        if self.has_written:
            self.has_written = False
            raise NotSupportedError("0A000 each write was done at once, and stays: there is no rollback", "0A000", "feature_not_supported")

    def close(self) -> None:
        """Ends the session, and the program where this connection started it. A second close does nothing."""
        with self.lock:
            if not self.closed:
                self.closed = " already"
                self.transport.close()

    def __enter__(self) -> "Connection":
        return self

    def __exit__(self, *_fault: object) -> None:
        self.close()


def opened(connection: Connection, user: str, owner: Optional[str] = None, statements: Sequence[str] = ()) -> Connection:
    """The connection, with its session opened for the user after these statements of the owner. It is closed where one is refused."""
    try:
        if statements:
            connection.must(f"OPEN {owner}", f"OPEN {owner}")
            for it in statements:
                connection.must(f"Q {it}", it)
            connection.must("BYE")
        connection.must(f"OPEN {user}", f"OPEN {user}")
    except BaseException:
        connection.close()
        raise
    return connection
