"""The extended protocol: prepared statements, and portals that give their rows some at a time."""
from typing import Dict, List, Optional, Sequence, Tuple

from .. import sql
from ..sql import Token
from .messages import (BIND_COMPLETE, CLOSE_COMPLETE, EMPTY_QUERY, NO_DATA, PARSE_COMPLETE, SUSPENDED, Body, Refused, complete,
                       parameter_description, read_bind,
                       row_description)
from .output import Held, Output, all_formats, described_by, names_in
from .parameters import infer, is_known, literal, places, samples, without_null_patterns
from .quick import Quick, learned
from .rows import TEXT
from .sentences import refusal
from .session import Session
from .statements import CATALOGUE, ENGINE, Form, Statement, Statements
from .transactions import FAILED, IDLE

MOST_PARAMETERS, MOST_KEPT = 1000, 5000


class Prepared:
    """A prepared statement: its tokens, and the types of its parameters; 0 where a type is not known yet. `pieces` are the parts of its
    line between parameters."""

    def __init__(self, found: Sequence[Token], oids: Sequence[int], statements: Statements, database: str, text: str = "") -> None:
        self.given, self.statements, self.database, self.text = found, statements, database, text
        self.count = sql.count_of_parameters(found)
        if self.count > MOST_PARAMETERS:
            raise Refused("54000", f"a statement has at most {MOST_PARAMETERS:,} parameters here", "send the rows in parts")
        self.oids = list(oids[:self.count]) + [0] * (self.count - len(oids))
        self.places = places(found)
        self.has_patterns = any(before == "like" for before, _ in self.places.values())
        for number, (_, oid) in self.places.items():
            if not is_known(self.oids[number]):
                self.oids[number] = oid
        self.version = -1
        self.renew()

    def renew(self) -> None:
        """Looks again where the statement goes: objects may have changed."""
        if self.version == self.statements.objects.version:
            return
        self.version = self.statements.objects.version
        self.forms: Dict[Tuple[str, ...], Form] = {}
        self.model = self.statements.made(self.given, self.database) if self.given else None
        self.pieces, self.numbers = parted(self.model.found) if self.model else ([], [])

    @property
    def is_typed(self) -> bool:
        return all(map(is_known, self.oids))

    def literals(self, values: Sequence[Tuple[Optional[bytes], int]]) -> List[str]:
        made = [literal(value, form, oid) for (value, form), oid in zip(values, self.oids)]
        for number, (before, _) in self.places.items():
            if made[number] == "NULL" and before != "like":
                made[number] = "ALL" if before == "limit" else "0"
        return made

    def bound(self, literals: Sequence[str]) -> Optional[Statement]:
        """The statement with these literals in the places of its parameters."""
        made = self.bound_anew(literals)
        return made.of(self.text, 0) if made is not None else None

    def bound_anew(self, literals: Sequence[str]) -> Optional[Statement]:
        """As `bound`, without the client's text."""
        self.renew()
        if self.model is None or not literals:
            return self.model
        if self.model.kind != ENGINE or self.has_patterns and "NULL" in literals:
            return self.statements.made(sql.with_values(without_null_patterns(self.given, literals), literals), self.database)
        kinds = tuple("text" if it[0] == "'" else it if it[0].isalpha() else "(number)" if it[0] == "-" else "number" for it in literals)
        form = self.forms.get(kinds)
        found = None
        if form is None or form.types is None:
            found = sql.with_values(self.model.found, literals)
            form = self.forms.setdefault(kinds, self.statements.form(found))
        shown = [f"({it})" if it[0] == "-" else it for it in literals]
        parts = [self.pieces[0]]
        for number, piece in zip(self.numbers, self.pieces[1:]):
            parts += (shown[number], piece)
        return Statement(ENGINE, self.model.verb, found or self.model.found, "".join(parts).encode(), form)


def parted(found: Sequence[Token]) -> Tuple[List[str], List[int]]:
    """The text of a line between its parameters, and the numbers of these from 0."""
    pieces, numbers, now = [], [], []
    for it in found:
        if it.kind == "parameter":
            pieces.append(" ".join(now + [""]) if not pieces else " ".join(["", *now, ""]))
            numbers.append(int(it.value[1:]) - 1)
            now = []
        else:
            now.append(it.raw)
    return [*pieces, " ".join([""] + now if pieces else now)], numbers


class Portal:
    """A statement with its values. `held` is what it has not given yet; `is_run` whether it was run."""

    def __init__(self, statement: Optional[Statement], formats: Sequence[int]) -> None:
        self.statement, self.formats = statement, formats
        self.held: Optional[Held] = None
        self.is_run = False

    def close(self) -> None:
        if self.held is not None:
            self.held.close()
            self.held = None


class Extended(Session):
    """A session with the extended protocol's state."""
    prepared: Dict[str, Prepared]
    portals: Dict[str, Portal]
    quicks: Dict[bytes, Quick]  # by the bytes with which a Bind of them begins: the names of the portal and of the statement

    def begin(self) -> None:
        self.prepared, self.portals, self.quicks = {}, {}, {}

    async def parse(self, body: bytes) -> None:
        reader = Body(body)
        name, text = reader.text(), reader.text()
        oids = reader.numbers("I", reader.number("!H"))
        parts = await self.hub.parts(text) if self.hub.is_long(text) else sql.statements(text)
        if len(parts) > 1:
            raise Refused("42601", "cannot insert multiple commands into a prepared statement", "prepare each statement by itself")
        if name and name in self.prepared:
            raise Refused("42P05", f'prepared statement "{name}" already exists', "close it first, or choose another name")
        if len(self.prepared) > MOST_KEPT:
            raise Refused("54000", f"a session keeps at most {MOST_KEPT:,} prepared statements", "DEALLOCATE ALL forgets them")
        self.quicks.pop(b"\0" + name.encode() + b"\0", None)
        self.prepared[name] = Prepared(parts[0] if parts else (), oids, self.hub.statements, self.database, text)
        self.outlet.add(PARSE_COMPLETE)

    async def bind(self, body: bytes) -> None:
        found = read_bind(body)
        name, prepared, values = found.portal, self.statement_of(found.statement), found.values
        if len(values) != prepared.count:
            raise Refused("08P01", f"bind message supplies {len(values)} parameters, but the prepared statement requires {prepared.count}")
        if values and not prepared.is_typed and any(value is not None and not is_known(oid) for (value, _),
                                                    oid in zip(values, prepared.oids)):
            await self.infer(prepared)
        if name in self.portals:
            if name:
                raise Refused("42P03", f'portal "{name}" already exists', "close it first")
            self.close_portal(name)
        if len(self.portals) > MOST_KEPT:
            raise Refused("54000", f"a session keeps at most {MOST_KEPT:,} portals", "close those that are done")
        statement = prepared.bound(prepared.literals(values))
        self.portals[name] = Portal(statement, found.wanted)
        self.outlet.add(BIND_COMPLETE)
        if not name and found.statement:  # (the unnamed statement is parsed anew each time)
            quick = learned(prepared, statement, body, values)
            if quick is not None:
                self.quicks[b"\0" + found.statement.encode() + b"\0"] = quick

    def is_quick(self, quick: Quick) -> bool:
        """Whether what was learned of a prepared query holds still, and the session can send it at once."""
        hub = self.hub
        return (quick.version == hub.objects.version and hub.is_ready and self.starts == self.engine.starts and not self.timeout
                and self.transaction.status != FAILED)

    def keep_run(self, statement: Statement, formats: Sequence[int]) -> None:
        """Keeps the unnamed portal of a statement that runs, for the rest of the transaction."""
        self.close_portal("")
        portal = self.portals[""] = Portal(statement, formats)
        portal.is_run = True

    def statement_of(self, name: str) -> Prepared:
        prepared = self.prepared.get(name)
        if prepared is None:
            raise Refused("26000", f'prepared statement "{name}" does not exist', "prepare it again: DISCARD and DEALLOCATE forget "
                          "statements")
        return prepared

    async def infer(self, prepared: Prepared) -> None:
        prepared.renew()
        if prepared.model is not None and prepared.model.kind == ENGINE:
            await self.ensure()
            await infer(prepared.model.found, prepared.oids, self.engine, self.sid, self.hub.objects.tables)
        prepared.oids = [it if is_known(it) else TEXT for it in prepared.oids]

    # Describe

    async def describe(self, body: bytes) -> None:
        kind, name = body[:1], Body(body[1:]).text()
        if kind == b"S":
            prepared = self.statement_of(name)
            if not prepared.is_typed:
                await self.infer(prepared)
            self.outlet.add(parameter_description(prepared.oids))
            statement = prepared.bound(samples(prepared.oids))
            held = await self.described(Portal(statement, ())) if statement else None
            self.outlet.add(held or NO_DATA)
            return
        portal = self.portals.get(name)
        if portal is not None:
            self.outlet.add(await self.described(portal) or NO_DATA)
        elif name in self.cursors and self.cursors[name].types:  # (a cursor of DECLARE is a portal too)
            cursor = self.cursors[name]
            self.outlet.add(row_description(cursor.names, cursor.types))
        else:
            raise Refused("34000", f'portal "{name}" does not exist', "bind it first")

    async def described(self, portal: Portal) -> Optional[bytes]:
        """The RowDescription of a portal; None where it returns no rows. A query of the catalogue is run for it."""
        statement = portal.statement
        if statement is None:
            return None
        if portal.held is not None:
            return portal.held.described()
        if statement.kind == CATALOGUE or statement.verb == "show":
            await self.hold(portal)
            return portal.held.described()
        if statement.kind == ENGINE and statement.verb == "select":
            return await self.described_query(statement, portal.formats)
        if statement.kind == ENGINE and statement.verb == "fetch":
            cursor = self.cursors.get(statement.found[-1].value)
            if cursor is None:
                raise refusal("34000", "")
            return row_description(cursor.names, cursor.types, all_formats(portal.formats, len(cursor.names)))
        return None

    async def described_query(self, statement: Statement, formats: Sequence[int]) -> bytes:
        form = statement.form
        if form.types is None and await self.types_of(statement) is None:
            reply = await self.ask(sql.line(sql.cores(statement.found)).encode() + b" LIMIT 0")
            if reply.code:
                raise refusal(reply.code, reply.name, self.advised(statement, reply.code))
            names = names_in(reply.header or b"")
            return row_description(names, [TEXT] * len(names), all_formats(formats, len(names)))
        return described_by(form.names, form.types, all_formats(formats, len(form.types)))

    # Execute

    async def execute(self, body: bytes) -> None:
        reader = Body(body)
        name, most = reader.text(), max(reader.number("!i"), 0)
        portal = self.portals.get(name)
        if portal is None:
            raise Refused("34000", f'portal "{name}" does not exist', "bind it first")
        statement = portal.statement
        if statement is None:
            self.outlet.add(EMPTY_QUERY)
            return
        if portal.is_run and portal.held is None:
            raise Refused("55000", f'portal "{name}" cannot be run again', "bind it again")
        gives_rows = statement.kind in (ENGINE, CATALOGUE) and statement.verb in ("select", "fetch", "with") or statement.verb == "show"
        if portal.held is None and not (most and gives_rows):
            portal.is_run = True
            await self.run(statement, Output(self.outlet, self.sid, portal.formats, True))
            return
        if portal.held is None:
            await self.hold(portal)
        self.give(portal, most)

    async def hold(self, portal: Portal) -> None:
        """Runs a portal's statement, and keeps its rows."""
        held = Held(self.hub.pool, self.sid, portal.formats)
        portal.is_run = True
        try:
            await self.run(portal.statement, held)
        except BaseException:
            held.close()
            raise
        portal.held = held

    def give(self, portal: Portal, most: int) -> None:
        rows, count, has_more = portal.held.next(most)
        if rows and not self.outlet.stream(rows):
            raise Refused("53400", "the answer waits for the client to read it, and more than --spool-bytes would wait",
                          "read faster, or ask for fewer rows")
        verb = portal.held.tag.partition(" ")[0]
        self.outlet.add(SUSPENDED if has_more else complete(f"{verb} {count}" if verb in ("SELECT", "FETCH") else portal.held.tag))

    # The end of things

    async def close(self, body: bytes) -> None:
        kind, name = body[:1], Body(body[1:]).text()
        if kind == b"S":
            self.prepared.pop(name, None)
            self.quicks.pop(b"\0" + name.encode() + b"\0", None)
        else:
            self.close_portal(name)
            if name in self.cursors:
                await self.close_cursors((name, ))
        self.outlet.add(CLOSE_COMPLETE)

    def close_portal(self, name: str) -> None:
        portal = self.portals.pop(name, None)
        if portal is not None:
            portal.close()

    def sync(self) -> None:
        """Outside a transaction block all portals end."""
        if self.portals and self.transaction.status == IDLE:
            self.close_portals()

    def close_portals(self) -> None:
        for name in list(self.portals):
            self.close_portal(name)

    def deallocate(self, found: Sequence[Token]) -> None:
        name = found[-1].value
        self.quicks.clear()
        if name in ("all", "discard"):
            self.prepared.clear()
        elif self.prepared.pop(name, None) is None:
            raise Refused("26000", f'prepared statement "{name}" does not exist', "DEALLOCATE ALL forgets all that there are")
