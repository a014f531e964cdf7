"""What goes to one client. What it does not read waits in a temporary file, so the program is not held up and memory stays small; the
file has a bound."""
import asyncio, tempfile
from typing import IO, List, Optional

from .flow import Wait

HIGH_WATER = 1 << 20
PIECE = 1 << 18
MUCH = 1 << 16


class Pool:
    """How many bytes may wait in files, for all clients together."""

    def __init__(self, limit: int) -> None:
        self.limit, self.used = limit, 0

    def has(self, count: int) -> bool:
        return self.used + count <= self.limit


class Outlet:
    """Bytes for a client, in order: to its socket while it takes them, else to a file."""

    def __init__(self, pool: Pool) -> None:
        self.pool, self.is_paused, self.size = pool, False, 0
        self.parts: List[bytes] = []
        self.transport: Optional[asyncio.Transport] = None
        self.spool: Optional[IO[bytes]] = None
        self.written, self.read, self.waits = 0, 0, Wait()

    def use(self, transport: asyncio.Transport) -> None:
        """Writes to this transport from now on."""
        self.transport = transport
        transport.set_write_buffer_limits(high=HIGH_WATER)

    def add(self, data: bytes) -> None:
        """Adds a message, which goes out by the next `flush`."""
        self.parts.append(data)

    def stream(self, rows: bytes) -> bool:
        """Adds rows, and passes on what there is where it is much. Returns False where the bound of the file is reached: then the rows are
        left out."""
        if self.is_behind and not self.pool.has(len(rows)):
            return False
        self.parts.append(rows)
        self.size += len(rows)
        if self.size > MUCH:
            self.flush()
        return True

    def flush(self) -> None:
        """Passes on what was added."""
        if not self.parts:
            return
        data = self.parts[0] if len(self.parts) == 1 else b"".join(self.parts)
        self.parts, self.size = [], 0
        if self.transport.is_closing():
            return
        if not self.is_paused and self.spool is None:
            self.transport.write(data)
        else:
            self.keep(data)

    def keep(self, data: bytes) -> None:
        """Appends bytes to the file."""
        if self.spool is None:
            self.spool, self.written, self.read = tempfile.TemporaryFile(buffering=0), 0, 0
        self.spool.seek(self.written)
        self.written += len(data)
        view = memoryview(data)
        while view:
            view = view[self.spool.write(view):]
        self.pool.used += len(data)

    @property
    def is_behind(self) -> bool:
        return self.is_paused or self.spool is not None

    def drained(self) -> Wait:
        """Comes when the client has taken all."""
        self.waits = Wait()
        if not self.is_behind:
            self.waits.done()
        return self.waits

    def pause(self) -> None:
        self.is_paused = True

    def resume(self) -> None:
        """The client reads again: the file is emptied as far as it takes it."""
        self.is_paused = False
        while self.spool is not None and not self.is_paused:
            self.spool.seek(self.read)
            data = self.spool.read(PIECE)
            if data:
                self.read += len(data)
                self.transport.write(data)
            else:
                self.drop()
        if not self.is_behind:
            self.waits.done()

    def drop(self) -> None:
        """Closes the file."""
        if self.spool is not None:
            self.spool.close()
            self.spool = None
            self.pool.used -= self.written
