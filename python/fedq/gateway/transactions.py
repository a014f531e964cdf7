"""Transactions, as far as they can be had: a block reads as READ COMMITTED does, each statement the tables as they are. A write could not
be taken back, so a block refuses it, unless fedq.writes is 'each'."""
from typing import TYPE_CHECKING, List, Sequence

from .messages import Refused, warning
from .settings import judged
from .statements import SESSION, Statement

if TYPE_CHECKING:
    from .session import Session

IDLE, OPEN, FAILED = b"I", b"T", b"E"
ENDS = ("commit", "end", "rollback", "abort")
LEVELS = (("read", "committed"), ("read", "uncommitted"), ("repeatable", "read"), ("serializable", ))


class Transaction:
    """A session's transaction. `status` is what ReadyForQuery says."""

    def __init__(self, session: "Session") -> None:
        self.session, self.status, self.written, self.is_read_only = session, IDLE, 0, False
        self.savepoints: List[str] = []

    @property
    def has_failed(self) -> bool:
        return self.status == FAILED

    def fail(self) -> None:
        if self.status == OPEN:
            self.status = FAILED

    def may_end(self, statement: Statement) -> bool:
        """Whether a statement may run in a failed block."""
        return statement.kind == SESSION and statement.verb in ENDS

    def may_write(self) -> None:
        """Fails with Refused where a write may not be done now."""
        settings = self.session.settings
        if self.is_read_only or self.status == IDLE and settings.get("default_transaction_read_only") == "on":
            raise Refused("25006", "cannot write in a read-only transaction", "SET default_transaction_read_only = off, or begin one "
                          "that is READ WRITE")
        if self.status == OPEN and settings.get("fedq.writes") != "each":
            from .session import AUTOCOMMIT
            raise Refused("0A000", "a write in a transaction cannot be taken back by ROLLBACK, so it is refused", AUTOCOMMIT)

    def has_written(self) -> None:
        if self.status == OPEN:
            self.written += 1

    async def run(self, statement: Statement) -> str:
        """BEGIN, COMMIT, ROLLBACK, SAVEPOINT and their like. Returns the tag."""
        verb, words = statement.verb, [it.value for it in statement.found]
        if verb in ("begin", "start"):
            return self.begin(words)
        if verb in ("savepoint", "release"):
            return self.savepoint(verb, words[-1])
        if "to" in words[1:3] or "to" in words[2:3]:
            return self.back_to(words[-1])
        if "prepared" in words[1:2]:
            raise Refused("0A000", "two-phase commit is not supported", "COMMIT alone")
        return await self.end(verb)

    def begin(self, words: Sequence[str]) -> str:
        session = self.session
        if self.status == OPEN:
            session.outlet.add(warning("25001", "there is already a transaction in progress"))
        else:
            self.is_read_only = session.settings.get("default_transaction_read_only") == "on"
            self.written, self.savepoints = 0, []
        self.modes(words[1:])
        self.status = OPEN
        return "START TRANSACTION" if words[0] == "start" else "BEGIN"

    def modes(self, words: Sequence[str]) -> None:
        """ISOLATION LEVEL, READ ONLY and READ WRITE. Fails with Refused where the level cannot be had."""
        for at, it in enumerate(words):
            if it == "level":
                level = next((one for one in LEVELS if tuple(words[at + 1:at + 1 + len(one)]) == one), ("?", ))
                judged("transaction_isolation", " ".join(level))
            elif it == "read" and words[at + 1:at + 2] in (["only"], ["write"]):
                self.is_read_only = words[at + 1] == "only"

    def characteristics(self, words: Sequence[str]) -> None:
        """SET TRANSACTION, and SET SESSION CHARACTERISTICS AS TRANSACTION."""
        if words[1] == "transaction":
            if self.status == IDLE:
                self.session.outlet.add(warning("25P01", "SET TRANSACTION can only be used in transaction blocks"))
                return
            self.modes(words[2:])
            return
        kept = self.is_read_only
        self.modes(words)
        if "read" in words and ("only" in words or "write" in words):
            self.session.settings.set("default_transaction_read_only", "on" if self.is_read_only else "off")
        self.is_read_only = kept

    def savepoint(self, verb: str, name: str) -> str:
        if self.status == IDLE:
            raise Refused("25P01", f"{verb.upper()} can only be used in transaction blocks", "BEGIN first")
        if verb == "savepoint":
            self.savepoints.append(name)
            return "SAVEPOINT"
        self.cut_savepoints(name)
        self.savepoints.pop()
        return "RELEASE"

    def back_to(self, name: str) -> str:
        if self.status == IDLE:
            raise Refused("25P01", "ROLLBACK TO SAVEPOINT can only be used in transaction blocks", "BEGIN first")
        self.cut_savepoints(name)
        self.status = OPEN
        self.warn_of_writes()
        return "ROLLBACK"

    def cut_savepoints(self, name: str) -> None:
        """Forgets the savepoints after this one. Fails with Refused where there is none of this name."""
        places = [at for at, it in enumerate(self.savepoints) if it == name]
        if not places:
            raise Refused("3B001", f'savepoint "{name}" does not exist', "SAVEPOINT makes one")
        del self.savepoints[places[-1] + 1:]

    def warn_of_writes(self) -> None:
        if self.written:
            self.session.outlet.add(warning("01000", f"{self.written} writes of this transaction were done at once, and stay"))

    async def end(self, verb: str) -> str:
        """COMMIT and ROLLBACK. Cursors of the transaction end; those WITH HOLD live on after COMMIT."""
        is_back = verb in ("rollback", "abort") or self.status == FAILED
        if self.status == IDLE:
            self.session.outlet.add(warning("25P01", "there is no transaction in progress"))
            return "ROLLBACK" if is_back else "COMMIT"
        if is_back:
            self.warn_of_writes()
        self.status, self.written, self.savepoints, self.is_read_only = IDLE, 0, [], False
        cursors = self.session.cursors
        ending = tuple(name for name, it in cursors.items() if it.is_of_transaction and (is_back or not it.is_held))
        for name, it in list(cursors.items()):
            cursors[name] = it._replace(is_of_transaction=False)
        if ending and self.session.starts == self.session.engine.starts:
            await self.session.close_cursors(ending)
        return "ROLLBACK" if is_back else "COMMIT"
