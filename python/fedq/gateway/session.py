"""One client's session: its statements, its transaction, its cursors. Each statement goes to the program, to the catalogue, or is
answered here."""
from typing import TYPE_CHECKING, Dict, NamedTuple, Optional, Tuple

from ..advice import Advice
from ..sql import Token, Unsayable
from .advising import advised
from .catalogue import Answer, Asker
from .copying import copy_out_of
from .engine import Gone, Reply, Take, TooLong
from .flow import of_thread
from .messages import Refused, complete, error, parameter_status
from .outlet import Outlet
from .output import Output
from .outputs import learn
from .sentences import NO_ANSWER, refusal
from .settings import Settings, name_and_value, shown_name
from .statements import CATALOGUE, CHANGES, COPY, SESSION, WRITES, Statement, query_of
from .transactions import IDLE, Transaction

if TYPE_CHECKING:
    from .hub import Hub

LOST = ("HV000", "53200")
AUTOCOMMIT = "turn autocommit on (psycopg2: connection.autocommit = True), or SET fedq.writes = 'each' to have each write done at once"


class Cursor(NamedTuple):
    """A cursor of DECLARE: the names and types of its outputs where they are known, whether it lives on after COMMIT, and whether its
    transaction has not ended."""
    names: Tuple[str, ...]
    types: Tuple[int, ...]
    is_held: bool
    is_of_transaction: bool


class Session:
    """What belongs to one client. `sid` is its number in the program."""

    def __init__(self, hub: "Hub", outlet: Outlet, asker: Asker, settings: Settings) -> None:
        self.hub, self.engine, self.outlet, self.asker, self.settings = hub, hub.engine, outlet, asker, settings
        self.user, self.database, self.sid, self.starts = asker.user, asker.database, 0, 0
        self.transaction = Transaction(self)
        self.cursors: Dict[str, Cursor] = {}
        self.timeout = int(settings.get("statement_timeout") or 0)

    # The program

    async def ensure(self) -> None:
        """Waits until the program is there, and opens the session again where it was started anew. Fails with Refused (57P01) where
        something of the session is gone."""
        if not self.hub.is_ready:
            await self.hub.ready()
        if self.starts != self.engine.starts:
            self.starts = self.engine.starts
            await self.engine.reopen(self.sid, self.user)
            if self.cursors or self.transaction.status != IDLE:
                self.cursors.clear()
                raise Refused("57P01", "the program was started again: the session's cursors and its transaction are gone",
                              "begin the transaction again")

    async def ask(self, text: bytes, take: Optional[Take] = None) -> Reply:
        """Sends one statement. One that the program did not get before it ended is sent again to the next program."""
        while True:
            if not self.hub.is_ready or self.starts != self.engine.starts:
                await self.ensure()
            timer = self.engine.loop.call_later(self.timeout / 1000, self.cancel) if self.timeout else None
            try:
                return await self.engine.ask(self.sid, b"Q " + text, take)
            except Gone as fault:
                if fault.was_sent or self.cursors or self.transaction.status != IDLE:
                    raise
            finally:
                if timer:
                    timer.cancel()

    def cancel(self) -> None:
        """Takes back what waits. What runs goes on in the program: the client of a query is answered at once and its rows are dropped; a
        write is answered once it is done."""
        if not self.sid or self.engine.take_back(self.sid):
            return
        running = self.engine.running(self.sid)
        if running and not running.is_done and running.line[2:9].lower().startswith((b"select", b"fetch")):
            running.is_dropped = True
            running.done(Reply(None, (), "", "57014", "query_canceled"))

    # Statements

    async def run(self, statement: Statement, output: Output) -> None:
        """Runs one statement. Fails with Refused, Unsayable, Gone or TooLong."""
        transaction = self.transaction
        if transaction.has_failed and not transaction.may_end(statement):
            raise Refused("25P02", "current transaction is aborted, commands ignored until end of transaction block", "ROLLBACK ends it")
        if statement.kind == SESSION:
            answer = await self.of_session(statement)
            if isinstance(answer, Answer):
                output.answer(answer)
            else:
                output.end(None, answer)
        elif statement.kind == CATALOGUE:
            output.answer(await of_thread(self.hub.catalogue.ask(statement.found, self.asking(), self.hub.objects), self.engine.loop))
        elif statement.kind == COPY:
            await copy_out_of(self, statement.found)
        else:
            await self.of_program(statement, output)

    def asking(self) -> Asker:
        return self.asker._replace(settings={**self.settings.all(), "transaction_isolation": "read committed"})

    async def of_program(self, statement: Statement, output: Output) -> None:
        verb = statement.verb
        if verb == "select":
            output.known = statement.form.types or await self.types_of(statement)
        elif verb == "fetch":
            cursor = self.cursors.get(statement.found[-1].value)
            output.known = cursor.types if cursor else None
        elif verb in WRITES or verb in CHANGES:
            self.transaction.may_write()
        reply = await self.ask(statement.line, output.take)
        if reply.code:
            self.lose(statement, reply.code)
            raise refusal(reply.code, reply.name, self.advised(statement, reply.code))
        if verb not in ("select", "fetch"):
            await self.note(verb, statement)
        output.end(reply.header, reply.tag)

    def advised(self, statement: Statement, code: str) -> Optional[Advice]:
        """What helps with a statement that the program refused."""
        return advised(statement, code, self.database, self.hub.objects, self.engine.command)

    async def types_of(self, statement: Statement) -> Optional[Tuple[int, ...]]:
        """The types of a query's outputs; None where the program would refuse it."""
        await self.ensure()
        await learn(statement.form, statement.found, self.engine, self.sid, self.hub.objects.tables)
        return statement.form.types

    async def note(self, verb: str, statement: Statement) -> None:
        """Keeps what a statement that was done has changed of the session."""
        if verb in WRITES or verb in CHANGES:
            self.transaction.has_written()
        elif verb == "declare":
            query = query_of(statement.found)
            form = self.hub.statements.form(query)
            await learn(form, query, self.engine, self.sid, self.hub.objects.tables)
            before = [it.value for it in statement.found[:len(statement.found) - len(query)] if it.kind == "word"]
            is_held = "hold" in before[1:]
            self.cursors[statement.found[1].value] = Cursor(tuple(form.names or ()), form.types or (), is_held,
                                                            self.transaction.status != IDLE)
        elif verb == "close":
            self.cursors.pop(statement.found[-1].value, None)

    def lose(self, statement: Statement, code: str) -> None:
        """A FETCH that failed may have lost its cursor. One that was canceled has moved it, and nobody knows how far: it is closed."""
        if statement.verb != "fetch":
            return
        name = statement.found[-1].value
        if code == "57014" and name in self.cursors:
            self.engine.ask(self.sid, b"Q CLOSE " + quoted(name))
        if code in LOST or code == "57014":
            self.cursors.pop(name, None)

    async def close_cursors(self, names: Tuple[str, ...]) -> None:
        for name in names:
            self.cursors.pop(name, None)
            await self.engine.ask(self.sid, b"Q CLOSE " + quoted(name))

    # What is answered here

    async def of_session(self, statement: Statement) -> object:
        """A tag, or an Answer."""
        verb, found = statement.verb, statement.found
        if verb in ("set", "reset"):
            return self.set(found)
        if verb == "show":
            return self.show(found)
        if verb == "discard":
            return await self.discard(found)
        if verb == "deallocate":
            self.deallocate(found)
            return "DEALLOCATE ALL" if found[-1].value == "all" else "DEALLOCATE"
        if verb == "close":
            await self.close_cursors(tuple(self.cursors))
            return "CLOSE CURSOR ALL"
        if verb in ("listen", "unlisten"):
            if verb == "listen":
                raise Refused("0A000", "LISTEN is not supported: nothing is notified here", "try again from time to time")
            return "UNLISTEN"
        return await self.transaction.run(statement)

    def set(self, found: Tuple[Token, ...]) -> str:
        verb, words = found[0].value, [it.value for it in found]
        if verb == "reset":
            name = ".".join(it for it in words[1:] if it != ".")
            if not name:
                raise Refused("42601", "RESET expects a parameter's name, or ALL", "RESET ALL")
            changed = self.settings.reset() if name == "all" else [self.settings.set(name, None)]
        elif words[1:2] == ["transaction"] or words[1:3] == ["session", "characteristics"]:
            self.transaction.characteristics(words)
            return "SET"
        else:
            changed = [self.settings.set(*name_and_value(found))]
        for it in changed:
            if it:
                self.outlet.add(parameter_status(*it))
        self.timeout = int(self.settings.get("statement_timeout") or 0)
        return verb.upper()

    def show(self, found: Tuple[Token, ...]) -> Answer:
        name = shown_name(found)
        if name == "all":
            rows = sorted(self.settings.all().items())
            return Answer(["name", "setting", "description"], [25, 25, 25], [[it, value, ""] for it, value in rows], "SHOW")
        return Answer([name], [25], [[self.settings.show(name)]], "SHOW")

    async def discard(self, found: Tuple[Token, ...]) -> str:
        what = found[1].value if len(found) > 1 else ""
        if what not in ("all", "plans", "sequences", "temp", "temporary"):
            raise Refused("42601", "DISCARD expects ALL, PLANS, SEQUENCES or TEMP", "DISCARD ALL")
        if what == "all":
            if self.transaction.status != IDLE:
                raise Refused("25001", "DISCARD ALL cannot run inside a transaction block", "end the transaction first")
            await self.close_cursors(tuple(self.cursors))
            self.deallocate(found)
            for it in self.settings.reset():
                self.outlet.add(parameter_status(*it))
            self.timeout = int(self.settings.get("statement_timeout") or 0)
        return f"DISCARD {what.upper()}"

    def deallocate(self, found: Tuple[Token, ...]) -> None:
        """Forgets prepared statements; the extended protocol's object takes its place."""

    # Faults

    def refuse(self, fault: Exception) -> None:
        """Reports a refusal to the client; its transaction has failed then."""
        self.outlet.add(error(refused_by(fault)))
        self.transaction.fail()


def refused_by(fault: Exception) -> Refused:
    """Returns the refusal that a client reads for a fault."""
    if isinstance(fault, Refused):
        return fault
    if isinstance(fault, Unsayable):
        return Refused(fault.args[0], fault.args[1])
    if isinstance(fault, TooLong):
        return Refused("54000", "the statement is longer than a request may be, 1,048,576 bytes", "send it in parts")
    if isinstance(fault, Gone):
        text = f"the program ended while it was at work: {NO_ANSWER}"
        if not fault.was_sent:
            text = "the program ended before it got the statement: it was not done"
        return Refused("57P01", text, "it is started again: try again")
    raise fault


def quoted(name: str) -> bytes:
    return b'"' + name.replace('"', '""').encode() + b'"'
