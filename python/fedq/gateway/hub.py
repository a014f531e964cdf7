"""What all clients share: the program, its objects, the catalogue, the users, and who is connected."""
import asyncio, ssl, sys, time
from concurrent.futures import ThreadPoolExecutor
from typing import Dict, List, Optional, Set

from ..sql import MOST_KEPT_CHARACTERS, Unsayable, statements
from .catalogue import Catalogue
from .connection import Connection
from .engine import OWN_SESSION, Engine, Gone
from .flow import Wait, in_loop, of_thread
from .messages import Refused
from .objects import Objects
from .outlet import Pool
from .scram import Users
from .statements import Statements

READY_SECONDS, FIRST_DELAY, LAST_DELAY = 10, 0.1, 5.0
MOST_CONNECTIONS = 600


class Hub:
    """One for all clients."""

    def __init__(self, engine: Engine, objects: Objects, users: Optional[Users], tls: Optional[ssl.SSLContext], spool_bytes: int,
                 is_verbose: bool) -> None:
        self.engine, self.objects, self.users, self.tls, self.is_verbose = engine, objects, users, tls, is_verbose
        self.loop = asyncio.get_running_loop()
        self.pool, self.statements, self.catalogue = Pool(spool_bytes), Statements(objects), Catalogue(engine.owner)
        self.cutter = ThreadPoolExecutor(1, "tokens")
        self.connections: Dict[int, Connection] = {}
        self.made: List[bytes] = []
        self.waits: Set[Wait] = set()
        self.is_ready, self.is_again, self.last_pid = False, False, 1000
        engine.on_change, engine.on_end = self.note, self.restart

    # Clients

    def next_pid(self) -> int:
        self.last_pid = self.last_pid % 0x7fffffff + 1
        return self.last_pid

    def joins(self, connection: Connection) -> None:
        self.connections[connection.pid] = connection
        if len(self.connections) > MOST_CONNECTIONS:
            connection.refuse_all(Refused("53300", "too many connections wait for their start", "try again later"))

    def leaves(self, connection: Connection) -> None:
        self.connections.pop(connection.pid, None)
        if self.is_verbose:
            session, seconds = connection.session, time.monotonic() - connection.began
            who = f"{session.user}@{session.database}" if session else "nobody"
            print(f"fedq-gateway: {connection.peer} {who}{' by TLS' if connection.is_secure else ''} {connection.end} after "
                  f"{seconds:.3f} s", file=sys.stderr, flush=True)

    def cancel(self, pid: int, secret: int) -> None:
        """Cancels the request of a client's session, where the secret is its own."""
        found = self.connections.get(pid)
        if found and found.is_secret(secret) and found.session:
            found.session.cancel()

    # Long texts

    @staticmethod
    def is_long(text: str) -> bool:
        """Whether cutting a text into tokens would hold up the other clients."""
        return len(text) > MOST_KEPT_CHARACTERS

    def parts(self, text: str) -> Wait:
        """Comes with the statements of a long text, as tokens, which a thread of its own makes. Fails with Unsayable."""
        return of_thread(self.cutter.submit(statements, text), self.loop)

    # The program

    def note(self, text: bytes) -> None:
        """A CREATE or DROP was done."""
        if self.is_again:
            return
        self.made.append(text)
        try:
            self.objects.note_all(text.decode())
        except Unsayable:
            self.objects.version += 1

    async def begin(self) -> None:
        """Starts the program. Fails with Gone where it does not begin."""
        self.is_again = True
        await self.engine.begin()
        self.is_again, self.is_ready = False, True

    def restart(self) -> None:
        """The program has ended."""
        self.is_ready = False
        if not self.is_again:
            self.is_again = True
            asyncio.ensure_future(self.again())

    async def again(self) -> None:
        """Starts the program again, and makes the objects that were made since."""
        complaint = self.engine.complaint.decode(errors="replace").strip()
        print("fedq-gateway: the program ended" + (f": {complaint}" if complaint else "") + "; it is started again", file=sys.stderr,
              flush=True)
        delay = FIRST_DELAY
        while True:
            try:
                await self.engine.begin()
                for text in self.made:
                    reply = await in_loop(self.engine.ask(OWN_SESSION, b"Q " + text))
                    if reply.code:
                        print(f"fedq-gateway: not made again, {reply.code} {reply.name}: {text.decode()}", file=sys.stderr, flush=True)
                break
            except (Gone, OSError):
                complaint = self.engine.complaint.decode(errors="replace").strip()
                print(f"fedq-gateway: the program does not begin: {complaint}", file=sys.stderr, flush=True)
                await asyncio.sleep(delay)
                delay = min(2 * delay, LAST_DELAY)
        self.is_again, self.is_ready = False, self.engine.is_up
        if not self.is_ready:
            self.restart()
            return
        waits, self.waits = self.waits, set()
        for it in waits:
            it.done()

    def ready(self) -> Wait:
        """Comes when the program is there. Fails with Refused (57P03) where that takes too long."""
        wait = Wait()
        if self.is_ready:
            wait.done()
        else:
            self.waits.add(wait)
            self.loop.call_later(READY_SECONDS, self.give_up, wait)
        return wait

    def give_up(self, wait: Wait) -> None:
        self.waits.discard(wait)
        wait.done(None, Refused("57P03", "the program is being started again", "try again in a moment; the gateway's standard error "
                                "says why it ended"))
