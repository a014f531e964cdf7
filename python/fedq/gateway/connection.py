"""One PostgreSQL client: its start, its messages in their order, and its end."""
import asyncio, hmac, secrets, sys, time
from collections import deque
from typing import TYPE_CHECKING, Deque, Dict, Optional, Tuple

from ..sql import Unsayable
from .catalogue import Asker
from .engine import Gone, Request, TooLong
from .extended import Extended
from .flow import Flow, Wait
from .messages import (CANCEL_REQUEST, EMPTY_QUERY, GSS_REQUEST, READY, SSL_REQUEST, START_BYTES, VERSION_3, Body, Refused, cut, decoded,
                       error, message, negotiated, parameter_status)
from .outlet import Outlet
from .output import Output
from .quick import started
from .scram import BadUsers, Wrong
from .sentences import refusal
from .settings import REPORTED, Settings
from .transactions import IDLE
from .words import is_loopback

if TYPE_CHECKING:
    from .hub import Hub

START_SECONDS, WRONG_SECONDS, LEAVE_SECONDS = 60, 0.3, 5
INBOX_BYTES = 1 << 23
FAULTS = (Refused, Unsayable, Gone, TooLong)
IGNORED = b"dcf"


class Connection(asyncio.Protocol):
    """One client. Its coroutine `serve` takes message after message."""

    def __init__(self, hub: "Hub", is_trusted: bool = False) -> None:
        self.hub, self.is_trusted = hub, is_trusted
        self.outlet = Outlet(hub.pool)
        self.inbox: Deque[Tuple[int, bytes]] = deque()
        self.rest, self.kept, self.is_started, self.is_reading, self.is_secure, self.is_failed = b"", 0, False, True, False, False
        self.message, self.pause_over = Wait(), Wait()
        self.session: Optional[Extended] = None
        self.pid, self.secret, self.began, self.end = hub.next_pid(), secrets.randbits(32), time.monotonic(), "left"
        self.transport: Optional[asyncio.Transport] = None

    # The transport

    def connection_made(self, transport: asyncio.BaseTransport) -> None:
        if self.transport is not None:  # (TLS has begun: the rest is as before)
            return
        self.use(transport)
        peer = transport.get_extra_info("peername")
        self.peer = f"{peer[0]}:{peer[1]}" if isinstance(peer, tuple) else "local"
        self.is_local = not isinstance(peer, tuple) or is_loopback(peer[0])
        self.flow = Flow(self.serve(), self.abort)
        self.timer = self.hub.loop.call_later(START_SECONDS, self.abort)
        self.hub.joins(self)
        self.flow.step()

    def use(self, transport: asyncio.Transport) -> None:
        self.transport = transport
        self.outlet.use(transport)

    def abort(self) -> None:
        self.end = "did not begin in time" if not self.is_started else "was cut off"
        self.transport.abort()

    def connection_lost(self, _fault: Optional[Exception]) -> None:
        self.timer.cancel()
        self.flow.close()
        self.hub.leaves(self)
        self.outlet.drop()
        if self.session is not None:
            self.session.close_portals()
            if self.session.sid:
                self.hub.engine.close(self.session.sid)
                self.session.sid = 0

    def pause_writing(self) -> None:
        self.outlet.pause()

    def resume_writing(self) -> None:
        self.outlet.resume()

    def eof_received(self) -> bool:
        """A client that sends no more has gone: its session ends at once, whatever it has requested."""
        self.hub.loop.call_soon(self.transport.abort)
        return False

    def data_received(self, data: bytes) -> None:
        data = self.rest + data if self.rest else data
        try:
            at = cut(data, 0, self.inbox) if self.is_started else self.cut_start(data)
        except Refused as fault:
            self.refuse_all(fault)
            return
        self.rest = data[at:] if at < len(data) else b""
        self.kept += at
        if self.kept > INBOX_BYTES and self.is_reading:  # (a client that sends more than is answered waits)
            self.is_reading = False
            self.transport.pause_reading()
        if self.inbox:
            self.message.done()

    def cut_start(self, data: bytes) -> int:
        """The first messages have no kind. After the start come those with kinds."""
        at = 0
        while not self.is_started and len(data) - at >= 8 and not (self.inbox and self.inbox[-1][0] == SSL_REQUEST):
            length, code = int.from_bytes(data[at:at + 4], "big"), int.from_bytes(data[at + 4:at + 8], "big")
            if not 8 <= length <= START_BYTES:
                raise Refused("08P01", "invalid length of startup packet", "speak PostgreSQL's protocol 3.0 to this port")
            if len(data) - at < length:
                break
            self.inbox.append((code, data[at + 8:at + length]))
            at += length
            self.is_started = is_version_3(code)
        return cut(data, at, self.inbox) if self.is_started else at

    def refuse_all(self, fault: Refused) -> None:
        """Ends the connection by an error: what follows cannot be read."""
        self.outlet.add(error(fault, "FATAL"))
        self.flow.close()
        self.leave()

    def end_of_gateway(self) -> None:
        """The gateway ends."""
        self.end = "was ended with the gateway"
        if self.transport is not None and self.is_started:
            self.refuse_all(Refused("57P01", "terminating connection due to administrator command"))
        elif self.transport is not None:
            self.transport.abort()

    def leave(self) -> None:
        """Sends what there is and closes. A client that does not read it is cut off."""
        self.outlet.flush()
        self.hub.loop.call_soon(self.close)  # (not within what the transport has called: TLS would not bear it)
        self.hub.loop.call_later(LEAVE_SECONDS, self.transport.abort)

    def close(self) -> None:
        if not self.transport.is_closing():
            self.transport.close()

    # Messages

    async def next(self) -> Tuple[int, bytes]:
        while not self.inbox:
            self.outlet.flush()
            self.kept = 0
            if not self.is_reading:
                self.is_reading = True
                self.transport.resume_reading()
            self.message = Wait()
            await self.message
        return self.inbox.popleft()

    async def serve(self) -> None:
        try:
            if not await self.start():
                return
            while True:
                kind, body = self.inbox.popleft() if self.inbox else await self.next()
                if kind == 66 and self.inbox and not self.is_failed:  # B
                    begun = started(self.session, body, self.inbox)
                    if begun is not None:
                        await self.finish(*begun)
                        continue
                if kind == 88:  # X
                    break
                await self.take(kind, body)
        except FAULTS as fault:
            self.end = "was refused"
            self.outlet.add(error(fault if isinstance(fault, Refused) else Refused("57P01", "the program ended", "connect again"), "FATAL"))
        self.leave()

    async def take(self, kind: int, body: bytes) -> None:
        """Does what one message requests. After a fault all messages up to Sync are left out."""
        session = self.session
        if kind == 83:  # S
            self.is_failed = False
            session.sync()
            self.outlet.add(READY[session.transaction.status])
        elif self.is_failed:
            return
        elif kind == 81:  # Q
            try:
                await self.simple(body)
            except FAULTS as fault:
                session.refuse(fault)
            session.sync()
            self.outlet.add(READY[session.transaction.status])
        elif kind == 72:  # H
            self.outlet.flush()
        elif kind in HANDLERS:
            try:
                await HANDLERS[kind](session, body)
            except FAULTS as fault:
                session.refuse(fault)
                self.is_failed = True
        elif kind == 70:  # F
            session.refuse(Refused("0A000", "function calls are not supported", "query by SELECT"))
            self.outlet.add(READY[session.transaction.status])
        elif kind not in IGNORED:
            raise Refused("08P01", f"invalid frontend message type {kind}", "speak PostgreSQL's protocol 3.0 to this port")
        if self.outlet.is_behind:
            self.outlet.flush()
            await self.outlet.drained()

    async def finish(self, request: Request, output: Output, count: int) -> None:
        """Waits for the reply to a prepared query that was sent in one pass, and takes its messages up to Sync."""
        session, outlet = self.session, self.outlet
        for _ in range(count):
            self.inbox.popleft()
        try:
            try:
                reply = await request
            except Gone as fault:
                if fault.was_sent or session.cursors or session.transaction.status != IDLE:
                    raise
                reply = await session.ask(request.line[2:], output.take)
            if reply.code:
                raise refusal(reply.code, reply.name)
            output.end(reply.header, reply.tag)
        except FAULTS as fault:
            session.refuse(fault)
        session.sync()
        outlet.add(READY[session.transaction.status])
        if outlet.is_behind:
            outlet.flush()
            await outlet.drained()

    async def simple(self, body: bytes) -> None:
        """The statements of one text, one after the other. Each is done by itself: a fault ends the rest."""
        if body[-1:] != b"\0":
            raise Refused("08P01", "the message could not be read: its text does not end")
        session, outlet = self.session, self.outlet
        text, known = decoded(body[:-1]), self.hub.statements
        if self.hub.is_long(text):
            found = known.of_parts(await self.hub.parts(text), session.database)
        else:
            found = known.of(text, session.database)
        if not found:
            outlet.add(EMPTY_QUERY)
        for it in found:
            await session.run(it, Output(outlet, session.sid, (), False))
            if outlet.is_behind and len(found) > 1:
                outlet.flush()
                await outlet.drained()

    # The start

    async def start(self) -> bool:
        """Greets, asks for the password, opens the session. Returns whether there is one."""
        while True:
            code, body = await self.next()
            if code == SSL_REQUEST:
                await self.secure()
            elif code == GSS_REQUEST:
                self.transport.write(b"N")
            elif code == CANCEL_REQUEST:
                self.end = "requested to cancel"
                pid, secret = Body(body).numbers("I", 2)
                self.hub.cancel(pid, secret)
                self.leave()
                return False
            elif is_version_3(code):
                break
            else:
                raise Refused("0A000", f"unsupported frontend protocol {code >> 16}.{code & 65535}: server supports 3.0",
                              "use a client of PostgreSQL 7.4 or later")
        given = self.words(body)
        unknown = [it for it in given if it.startswith("_pq_.")]
        if code != VERSION_3 or unknown:
            self.outlet.add(negotiated(unknown))
        user, database = given.pop("user", ""), given.pop("database", "")
        await self.authenticate(user)
        self.timer.cancel()
        settings = Settings(user, {name: value for name, value in given.items() if name not in ("options", "replication")
                                   and name not in unknown})
        session = Extended(self.hub, self.outlet, Asker(user, database or "fedq", self.pid, {}), settings)
        session.begin()
        await self.open(session, user)
        self.session = session
        self.greet(session)
        return True

    def words(self, body: bytes) -> Dict[str, str]:
        """The names and values of the start-up message."""
        parts = [decoded(it) for it in body.split(b"\0")]
        end = next((at for at in range(0, len(parts), 2) if not parts[at]), len(parts))
        return {name.lower(): value for name, value in zip(parts[:end:2], parts[1:end:2])}

    async def secure(self) -> None:
        """Begins TLS where there is a certificate. What came before it in the clear is not taken."""
        if self.hub.tls is None or self.is_secure:
            self.transport.write(b"N")
            return
        if self.inbox or self.rest:
            raise Refused("08P01", "bytes came before TLS began")
        self.transport.pause_reading()
        self.transport.write(b"S")
        wait = Wait()
        task = asyncio.ensure_future(self.hub.loop.start_tls(self.transport, self, self.hub.tls, server_side=True,
                                                             ssl_handshake_timeout=20))
        task.add_done_callback(lambda it: wait.done(None if it.cancelled() or it.exception() else it.result()))
        made = await wait
        if made is None:
            raise Refused("08006", "TLS did not begin")
        self.use(made)
        self.is_secure = True

    async def authenticate(self, user: str) -> None:
        """SCRAM-SHA-256, where the gateway has users. Fails with Refused (28P01), as late and in the same words whatever is wrong."""
        if self.hub.tls is not None and not self.is_secure and not self.is_local:
            raise Refused("28000", "this gateway requires TLS", "connect with sslmode=require")
        if self.hub.users is None or self.is_trusted:
            return
        try:
            exchange = self.hub.users.exchange(user)
        except BadUsers as fault:
            print(f"fedq-gateway: {fault}", file=sys.stderr, flush=True)
            raise Refused("28000", "the gateway's file of users cannot be read", "ask who runs the gateway: standard error says why")
        try:
            self.outlet.add(message(b"R", b"\0\0\0\x0aSCRAM-SHA-256\0\0"))
            first = exchange.first(self.first_of(await self.password()))
            self.outlet.add(message(b"R", b"\0\0\0\x0b" + first.encode()))
            last = exchange.last(decoded(await self.password()))
        except (Wrong, Refused):
            wait = Wait()
            self.hub.loop.call_later(WRONG_SECONDS, wait.done)
            await wait
            self.end = "gave a wrong password"
            raise Refused("28P01", f'password authentication failed for user "{user[:63]}"', "`fedq-gateway --add-user NAME` gives a "
                          "user a password")
        self.outlet.add(message(b"R", b"\0\0\0\x0c" + last.encode()))

    async def password(self) -> bytes:
        kind, body = await self.next()
        if kind != 112:  # p
            raise Wrong()
        return body

    @staticmethod
    def first_of(body: bytes) -> str:
        """The client's first message, after the mechanism's name and its length."""
        reader = Body(body)
        if reader.text() != "SCRAM-SHA-256":
            raise Wrong()
        return decoded(reader.bytes(reader.number("!i")))

    async def open(self, session: Extended, user: str) -> None:
        try:
            if not self.hub.is_ready:
                await self.hub.ready()
            sid = await self.hub.engine.open(user)
        except ValueError:
            raise Refused("28000", f'"{user[:63]}" is no name of a user', "a-z, 0-9 and _, 1 to 63 characters, and not public, user or "
                          "current_user")
        if sid is None:
            raise Refused("53300", "sorry, too many clients already: 255 are served at a time", "close a connection, or share some by a "
                          "pool")
        session.sid, session.starts = sid, self.hub.engine.starts

    def greet(self, session: Extended) -> None:
        self.outlet.add(message(b"R", b"\0\0\0\0"))
        for name in REPORTED:
            self.outlet.add(parameter_status(name, session.settings.get(name.lower()) or ""))
        self.outlet.add(parameter_status("session_authorization", session.user))
        self.outlet.add(message(b"K", self.pid.to_bytes(4, "big") + self.secret.to_bytes(4, "big")))
        self.outlet.add(READY[b"I"])

    def is_secret(self, secret: int) -> bool:
        return hmac.compare_digest(secret.to_bytes(4, "big"), self.secret.to_bytes(4, "big"))


def is_version_3(code: int) -> bool:
    """Whether a client speaks protocol 3 in one of its minor versions."""
    return code >> 16 == VERSION_3 >> 16


HANDLERS = {80: Extended.parse, 66: Extended.bind, 68: Extended.describe, 69: Extended.execute, 67: Extended.close}
