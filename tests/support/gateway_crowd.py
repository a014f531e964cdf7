"""Many clients at once, each with rows of its own, whose answers are compared with a plain list of rows."""
import random, threading
from typing import Dict, Iterator, List, Tuple

from support.cases import Case, Cases
from support.gateways import Gateway
from support.wire import Client

Rows = Dict[int, Tuple[str, str]]  # by `no`: part and n
OWN = 1000  # the numbers of rows that a client has for itself


class Member:
    """One client: it writes the rows of `orders` whose numbers are its own, reads them back, and reads others' tables by cursors."""

    def __init__(self, gateway: Gateway, number: int, seed: int) -> None:
        self.client: Client = gateway.connect(f"u{number}")
        self.first, self.pick, self.rows = number * OWN, random.Random(seed * 1000 + number), {}  # type: int, random.Random, Rows
        self.wrong: List[str] = []
        self.done = self.refused = 0

    def check(self, what: str, found: object, wanted: object) -> None:
        """Notes what is not as wanted."""
        self.done += 1
        if found != wanted:
            self.wrong.append(f"client {self.first // OWN}, {what}: wanted {wanted!r}, found {found!r}"[:400])

    def own(self) -> str:
        """The condition for its own rows."""
        return f"no >= {self.first} AND no < {self.first + OWN}"

    def listed(self) -> List[Tuple[str, str, str]]:
        """Its rows as they should be, by number."""
        return [(str(no), *self.rows[no]) for no in sorted(self.rows)]

    def write(self, sql: str, tag: str, after: Rows) -> None:
        """A write, which another's cursor may refuse: then nothing has changed."""
        found = self.client.query(sql)
        if found.code == "55006":
            self.refused += 1
            return
        self.check(sql[:80], (found.tags, found.code), ([tag], ""))
        self.rows = after

    def insert(self) -> None:
        """Two rows more."""
        numbers = self.pick.sample([it for it in range(self.first, self.first + OWN) if it not in self.rows], 2)
        new = {no: (str(self.pick.randrange(-9, 9)), str(self.pick.randrange(1 << 40))) for no in numbers}
        self.write(
            "INSERT INTO orders VALUES " + ", ".join(f"({no}, {part}, {n})" for no, (part, n) in new.items()),
            "INSERT 0 2",
            {**self.rows, **new},
        )

    def update(self) -> None:
        """Another number in the rows of one part."""
        part, n = str(self.pick.randrange(-9, 9)), str(self.pick.randrange(1 << 40))
        after = {no: (it[0], n if it[0] == part else it[1]) for no, it in self.rows.items()}
        count = sum(it[0] == part for it in self.rows.values())
        self.write(f"UPDATE orders SET n = {n} WHERE {self.own()} AND part = {part}", f"UPDATE {count}", after)

    def delete(self) -> None:
        """The rows of one part go."""
        part = str(self.pick.randrange(-9, 9))
        after = {no: it for no, it in self.rows.items() if it[0] != part}
        self.write(f"DELETE FROM orders WHERE {self.own()} AND part = {part}", f"DELETE {len(self.rows) - len(after)}", after)

    def read(self) -> None:
        """All its rows, by either protocol."""
        sql = f"SELECT no, part, n FROM orders WHERE {self.own()} ORDER BY no"
        found = (
            self.client.query(sql)
            if self.pick.random() < 0.5
            else self.client.prepared(
                "SELECT no, part, n FROM orders WHERE no >= $1 AND no < $2 ORDER BY no", [b"%d" % self.first, b"%d" % (self.first + OWN)]
            )
        )
        self.check("its rows", found.texts, self.listed())

    def cursor(self) -> None:
        """Its rows once more, or those of a file, by a cursor in pieces."""
        is_own = self.pick.random() < 0.1
        query = (
            f"SELECT no, part, n FROM orders WHERE {self.own()} ORDER BY no"
            if is_own
            else "SELECT id, grp FROM mid WHERE id < 50 ORDER BY id"
        )
        self.check("DECLARE", self.client.query(f"DECLARE c CURSOR FOR {query}").tags, ["DECLARE CURSOR"])
        if is_own:
            self.check("a write under its cursor", self.client.query(f"DELETE FROM orders WHERE {self.own()}").code, "55006")
        rows: List[Tuple[str, ...]] = []
        while found := self.client.query(f"FETCH {self.pick.randrange(1, 30)} FROM c").texts:
            rows += found  # type: ignore[arg-type]
        self.check("rows by a cursor", rows, self.listed() if is_own else [(str(it), str(it % 100)) for it in range(50)])
        self.check("CLOSE", self.client.query("CLOSE c").tags, ["CLOSE CURSOR"])

    def run(self, count: int) -> None:
        """Steps drawn at random."""
        try:
            for _ in range(count):
                self.pick.choice([self.insert, self.insert, self.update, self.delete, self.read, self.read, self.cursor])()
            self.read()
        except (OSError, ValueError) as fault:
            self.wrong.append(f"client {self.first // OWN}: {type(fault).__name__}: {fault}")


def crowd(clients: int, steps: int, seed: int = 1) -> Cases:
    """Lets clients do steps at once, each the given number."""

    def many_clients(gateway: Gateway) -> Iterator[Case]:
        members = [Member(gateway, number, seed) for number in range(1, clients + 1)]
        threads = [threading.Thread(target=it.run, args=(steps,)) for it in members]
        for it in threads:
            it.start()
        for it in threads:
            it.join()
        yield f"{clients} clients: what is wrong", [line for it in members for line in it.wrong][:3], []
        yield f"{clients} clients: each did its steps", min(it.done + it.refused for it in members) > steps // 2, True
        wanted = [("10", "1", "4"), ("11", "1", "6"), ("12", "9", "1"), *(row for it in members for row in it.listed())]
        yield "all rows in the end", members[0].client.query("SELECT no, part, n FROM orders ORDER BY no").texts, wanted
        yield "some writes were refused for a cursor", sum(it.refused for it in members) > 0 or clients < 100, True
        for it in members:
            it.client.leave()

    return many_clients
