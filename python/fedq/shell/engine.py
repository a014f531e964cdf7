"""Who answers: a program that the shell started, or a connection to one that `fedq serve` serves. Both speak the lines of
docs/PROTOCOL.md."""
from __future__ import annotations

import os, select, signal, socket, subprocess, time
from collections.abc import Callable, Iterator
from collections import namedtuple

# A request's end: the tag of its T line, or the code and name of its E line.
Reply = namedtuple("Reply", "tag code name")
CLOSED = "0 T CLOSED"
PIECE = 1 << 20
PATIENCE = 10  # seconds in which a program without input has to end


class Ended(Exception):
    """The other side ended. `status` is the program's, below 0 where a signal ended it."""

    def __init__(self, status) -> None:
        super().__init__(status)
        self.status = status


class Nobody:
    """Whom no waiting is shown to."""

    def tick(self, seconds: float, what: str = "") -> None:
        """This number of seconds was waited."""

    def clear(self) -> None:
        """Something came."""


class Engine:
    """Sends one request after the other. Ctrl-C interrupts only the waiting for a reply and what is done with its rows, so nothing that
    came is lost."""

    def __init__(self, watcher, interrupts) -> None:
        self.watcher, self.interrupts, self.is_busy, self.rest, self.last = watcher, interrupts, False, [], ""

    def ask(self, session: int, request: str, take_page: Callable[[str], None]) -> Reply:
        """Sends `request` for a session and reads its reply, in pages: `take_page` takes the H and R lines of each, as one text. Returns
        the Reply. Where it is left by an exception before, `is_busy` stays: what then comes belongs to this request."""
        self.is_busy, self.rest, self.last, self.has_rows = True, [], "", False
        self.send(f"{session} {request}\n".encode())
        for page in self.pages(session):
            if page:
                with self.interrupts.allowed():
                    take_page(page)
        self.is_busy = False
        return reply_of(self.last)

    def drain(self, session: int) -> None:
        """Reads the reply to its end and drops it."""
        for _ in self.pages(session):
            pass
        self.is_busy = False

    def pages(self, session: int) -> Iterator[str]:
        """Texts of whole H and R lines, up to the line that ends the reply, which is then `last`."""
        ends = f"{session} T ", f"{session} E "
        while not self.last:
            piece = self.more()
            end = piece.rfind(b"\n") + 1
            if not end:
                self.rest.append(piece)
                continue
            page = (b"".join(self.rest) + piece[:end]).decode(errors="replace")
            self.rest, self.has_rows = [piece[end:]], True
            begin = page.rfind("\n", 0, -1) + 1
            if page.startswith(CLOSED, begin):
                raise Ended(self.finish())
            if page.startswith(ends, begin):
                page, self.last = page[:begin], page[begin:-1]
            yield page

    def more(self) -> bytes:
        """The next bytes that come; raises Ended."""
        began = time.monotonic()
        with self.interrupts.allowed():
            while not select.select([self.source], [], [], 0.1)[0]:
                self.watcher.tick(time.monotonic() - began)
        self.watcher.clear()
        try:
            piece = os.read(self.source, PIECE)
        except OSError:
            piece = b""
        if not piece:
            raise Ended(self.finish())
        return piece


def reply_of(last: str) -> Reply:
    """The Reply of the line that ends it."""
    _, verb, rest = last.split(" ", 2)
    return Reply(rest, "", "") if verb == "T" else Reply("", *rest.split(" ", 1))


def die_with_parent() -> None:
    """Has Linux end this process when the shell dies without ending it, as by SIGKILL."""
    try:
        import ctypes
        ctypes.CDLL(None).prctl(1, signal.SIGKILL)
    except (ImportError, OSError, AttributeError):
        pass


# How programs are started that the shell ends itself: Ctrl-C at the terminal does not reach them.
APART = {"start_new_session": True, "preexec_fn": die_with_parent}


class Program(Engine):
    """`fedq run`, apart from the shell's terminal."""

    def __init__(self, command, watcher, interrupts) -> None:
        super().__init__(watcher, interrupts)
        self.process = subprocess.Popen(command, stdin=subprocess.PIPE, stdout=subprocess.PIPE, bufsize=0, **APART)
        self.source = self.process.stdout.fileno()
        try:
            import fcntl
            fcntl.fcntl(self.source, 1031, PIECE)  # F_SETPIPE_SZ: longer pieces
        except (ImportError, OSError):
            pass

    def send(self, line: bytes) -> None:
        """Sends a line; fails with Ended where the other side has ended."""
        try:
            while line:
                line = line[self.process.stdin.write(line):]
        except OSError:
            raise Ended(self.finish())

    def finish(self) -> int:
        """Lets the program end, and returns its status."""
        self.close(self.process.stdin)
        try:
            self.process.wait(PATIENCE)
        except subprocess.TimeoutExpired:
            pass
        return self.stop()

    def stop(self) -> int:
        """Ends the program and what it started, at once where it has not ended, and returns its status."""
        if self.process.poll() is None:
            self.signal(signal.SIGTERM)
            try:
                self.process.wait(2)
            except subprocess.TimeoutExpired:
                pass
            self.signal(signal.SIGKILL)
            self.process.wait()
        self.close(self.process.stdin)
        self.close(self.process.stdout)
        return self.process.returncode

    def signal(self, number: int) -> None:
        """Sends a signal to the program and what it started."""
        try:
            os.killpg(self.process.pid, number)
        except (ProcessLookupError, PermissionError):
            pass

    def close(self, pipe: object) -> None:
        """Closes a pipe; a failure is passed over."""
        try:
            pipe.close()
        except OSError:
            pass


class Connection(Engine):
    """A connection to a port of this machine. What is stopped here goes on there until it is done."""

    def __init__(self, port, watcher, interrupts) -> None:
        super().__init__(watcher, interrupts)
        self.socket = socket.create_connection(("127.0.0.1", port))
        self.source = self.socket.fileno()

    def send(self, line: bytes) -> None:
        """Sends a line; fails with Ended where the other side has ended."""
        try:
            self.socket.sendall(line)
        except OSError:
            raise Ended(1)

    def finish(self) -> int:
        """Ends the connection, and returns the status 0."""
        return self.stop()

    def stop(self) -> int:
        """Ends the connection."""
        self.socket.close()
        return 0
