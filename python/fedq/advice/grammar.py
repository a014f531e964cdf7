"""The grammar of docs/LANGUAGE.md, read from left to right: where a text goes on as no statement does, and of a statement what its parts
are. Nothing is run, and nothing is looked up."""
from __future__ import annotations

from typing import Callable, FrozenSet, List, NamedTuple, Optional, Sequence, Tuple

from ..sql import RESERVED, Placed

COMPARISONS = ("=", "<>", "!=", "<", "<=", ">", ">=")
MOST_HIGH = 64  # of an expression
MOST_SIGNS = 64  # of a text that is no statement
SIGNS: FrozenSet[str] = frozenset(["(", "+", "-", "*", "/", "%", "not"])
AGGREGATES: FrozenSet[str] = frozenset(["count", "sum", "min", "max"])


class Failure(Exception):
    """The text goes on as no statement does. `at` is the token's place in the list, `wanted` what could come there in words, and `calls`
    the places of the parentheses that are open."""

    def __init__(self, at: int, wanted: str, calls: Sequence[int]) -> None:
        super().__init__(at, wanted)
        self.at, self.wanted, self.calls = at, wanted, tuple(calls)


class TooHigh(Exception):
    """An expression is nested more deeply than any that is allowed. `at` is the token's place in the list."""

    def __init__(self, at: int) -> None:
        super().__init__(at)
        self.at = at


class Part(NamedTuple):
    """A part of an expression. `kind` is its type: integer, text, boolean, null, or nothing where that is not known; `column` its
    qualifier and name where it is a column, and `core` the place of its core. Its tokens are those from `begin` to before `end`; `high` is
    its height."""
    kind: str
    begin: int
    end: int
    high: int = 1
    column: Optional[Tuple[str, str]] = None
    core: int = 0


class Check(NamedTuple):
    """What an operator, a function or a place requires of the types of its parts. `what` is compare, arithmetic, like, condition or call, `at`
    the operator's or the function's place."""
    what: str
    at: int
    parts: Tuple[Part, ...]


class Use(NamedTuple):
    """A column or an aggregate that an expression uses: where, in which core and clause, and whether it is within an aggregate."""
    at: int
    core: int
    clause: str
    is_inside: bool
    part: Part


class Core:
    """What is known of a core: its entries of FROM as pairs of name and table with their places, its items, its keys of GROUP BY."""

    def __init__(self, begin: int) -> None:
        self.begin = begin
        self.entries: List[Tuple[str, str, int]] = []
        self.items: List[Part] = []
        self.labels: List[Tuple[str, Part]] = []
        self.keys: List[Part] = []
        self.star = -1  # the place of an item `*`
        self.has_from = self.has_groups = False


class Grammar:
    """Reads the tokens of one statement. After `line` its fields say what the statement has."""

    def __init__(self, found: Sequence[Placed], length: int) -> None:
        self.found = [*found, Placed("end", "", "", length, length)]
        self.at, self.clause, self.inside = 0, "", 0
        self.calls: List[int] = []
        self.cores: List[Core] = []
        self.checks: List[Check] = []
        self.columns: List[Use] = []
        self.aggregates: List[Use] = []
        self.conditions_of_on: List[int] = []  # the places of signs in ON
        self.high = (0, 0)  # of the highest expression, and its place
        self.declared: List[int] = []  # the places of the columns of CREATE FOREIGN TABLE
        self.rows: List[List[Part]] = []  # of VALUES
        self.target: Tuple[str, List[int]] = ("", [])  # the table that is written, and the places of the columns that are named
        self.sets: List[Tuple[int, Part]] = []
        self.is_insert_of_query = False  # whether a query's rows are inserted

    # Tokens

    def key(self, ahead: int = 0) -> str:
        """The word or mark that comes next, or some tokens later; nothing for another token."""
        at = self.at + ahead
        it = self.found[at] if at < len(self.found) else self.found[-1]
        return it.value if it.kind in ("word", "mark") else ""

    def kind(self) -> str:
        """The kind of the next token."""
        return self.found[self.at].kind

    def fail(self, wanted: str) -> Failure:
        """The failure at the next token."""
        return Failure(self.at, wanted, self.calls)

    def take(self, *keys: str) -> bool:
        """Whether these words or marks come next; they are then read."""
        if any(self.key(ahead) != it for ahead, it in enumerate(keys)):
            return False
        self.at += len(keys)
        return True

    def must(self, *keys: str) -> None:
        """Reads these words or marks. Fails with Failure."""
        for it in keys:
            if not self.take(it):
                raise self.fail(it.upper())

    def is_name(self) -> bool:
        """Whether a name comes next."""
        it = self.found[self.at]
        return it.kind == "quoted" and bool(it.value) or it.kind == "word" and it.raw.isascii() and it.value not in RESERVED

    def name(self, wanted: str = "a name") -> Placed:
        """Reads a name. Fails with Failure."""
        if not self.is_name():
            raise self.fail(wanted)
        self.at += 1
        return self.found[self.at - 1]

    def label(self) -> None:
        """Reads a label. Fails with Failure."""
        it = self.found[self.at]
        if not (it.kind == "word" and it.raw.isascii()) and not self.is_name():
            raise self.fail("a name")
        self.at += 1

    def text(self) -> Placed:
        """Reads a text. Fails with Failure."""
        if self.kind() not in ("text", "parameter"):
            raise self.fail("a text in single quotes")
        self.at += 1
        return self.found[self.at - 1]

    def is_number(self) -> bool:
        """Whether a whole number comes next."""
        return self.kind() == "number" and self.found[self.at].raw.isdigit() or self.kind() == "parameter"

    def number(self) -> None:
        """Reads a whole number. Fails with Failure."""
        if not self.is_number():
            raise self.fail("a whole number")
        self.at += 1

    # Statements

    def line(self) -> None:
        """Reads a statement. Fails with Failure, and with TooHigh."""
        rule = STATEMENTS.get(self.key())
        if rule is None:
            raise self.fail("a statement")
        rule(self)
        self.take(";")
        if self.kind() != "end":
            raise self.fail("the end")

    def select(self) -> None:
        """Reads a query."""
        self.core()
        while self.take("union"):
            self.must("all")
            self.core()
        self.clause = "order"
        if self.take("order"):
            self.must("by")
            self.order_key()
            while self.take(","):
                self.order_key()
        self.limits()

    def core(self) -> None:
        """Reads a core."""
        self.cores.append(Core(self.at))
        core, self.clause = self.cores[-1], "items"
        self.must("select")
        self.take("all") or self.take("distinct")
        self.item(core)
        while self.take(","):
            self.item(core)
        if self.take("from"):
            core.has_from, self.clause = True, "on"
            self.chain(core)
            while self.take(","):
                self.chain(core)
        if self.take("where"):
            self.condition("where")
        if self.take("group"):
            self.must("by")
            core.has_groups, self.clause = True, "group"
            core.keys.append(self.column())
            while self.take(","):
                core.keys.append(self.column())
        if self.take("having"):
            core.has_groups = True
            self.condition("having")

    def condition(self, clause: str) -> None:
        """Reads the condition of a clause."""
        self.clause = clause
        part = self.expression()
        self.checks.append(Check("condition", part.begin, (part, )))

    def item(self, core: Core) -> None:
        """Reads an item."""
        if self.key() == "*":
            core.star = self.at
            self.at += 1
            core.items.append(Part("*", self.at - 1, self.at))
            return
        if self.is_name() and self.key(1) == "." and self.key(2) == "*":
            self.at += 3
            core.items.append(Part("*", self.at - 3, self.at))
            return
        part = self.expression()
        core.items.append(part)
        if self.take("as"):
            self.label()
            core.labels.append((self.found[self.at - 1].value, part))
        elif self.is_name():
            core.labels.append((self.name().value, part))

    def chain(self, core: Core) -> None:
        """Reads an entry of FROM and its joins."""
        self.entry(core)
        while True:
            if self.take("cross"):
                self.must("join")
                self.entry(core)
                continue
            if self.take("left"):
                self.take("outer")
                self.must("join")
            elif self.take("inner"):
                self.must("join")
            elif not self.take("join"):
                return
            self.entry(core)
            self.must("on")
            begin = self.at
            self.condition("on")
            self.conditions_of_on += [at for at in range(begin, self.at) if self.is_risky(at)]

    def is_risky(self, at: int) -> bool:
        """Whether there is a sign of arithmetic at this place, which is no sign of a number."""
        it = self.found[at]
        is_first = self.found[at - 1].kind in ("mark", "word") and self.found[at - 1].raw != ")" and self.found[at + 1].kind == "number"
        return it.kind == "mark" and it.raw in ("+", "*", "/", "%", "-") and not (it.raw == "-" and is_first)

    def entry(self, core: Core) -> None:
        """Reads an entry of FROM."""
        at, table = self.at, self.name("the name of a table")
        called = table
        if self.take("as") or self.is_name():
            called = self.name()
        core.entries.append((called.value, table.value, at))

    def order_key(self) -> None:
        """Reads a key of ORDER BY."""
        self.expression()
        self.take("asc") or self.take("desc")
        if self.take("nulls") and not (self.take("first") or self.take("last")):
            raise self.fail("FIRST or LAST")

    def limits(self) -> None:
        """Reads LIMIT and OFFSET, in any order."""
        has_limit = has_offset = False
        while True:
            if not has_limit and self.take("limit"):
                has_limit = True
                if not self.take("all"):
                    self.number()
            elif not has_offset and self.take("offset"):
                has_offset = True
                self.number()
                self.take("row") or self.take("rows")
            else:
                return

    def column(self) -> Part:
        """Reads a column."""
        begin, name = self.at, self.name("a column")
        qualifier = ""
        if self.take("."):
            qualifier, name = name.value, self.name("a column")
        part = Part("", begin, self.at, 1, (qualifier, name.value), len(self.cores) - 1)
        self.columns.append(Use(begin, part.core, self.clause, self.inside > 0, part))
        return part

    def insert(self) -> None:
        """Reads an INSERT."""
        self.must("insert", "into")
        table, named = self.name("the name of a table"), []
        if self.take("("):
            self.calls.append(self.at - 1)
            while True:
                named.append(self.at)
                self.name("a column")
                if not self.take(","):
                    break
            self.must(")")
            self.calls.pop()
        self.target = (table.value, named)
        if self.key() == "select":
            self.is_insert_of_query = True
            return self.select()
        if not self.take("values"):
            raise self.fail("VALUES or SELECT")
        self.clause = "values"
        self.cores.append(Core(self.at))
        self.row()
        while self.take(","):
            self.row()

    def row(self) -> None:
        """Reads a row of VALUES."""
        self.must("(")
        self.calls.append(self.at - 1)
        self.rows.append(self.list())
        self.must(")")
        self.calls.pop()

    def update(self) -> None:
        """Reads an UPDATE."""
        self.must("update")
        core = self.written()
        self.must("set")
        self.clause = "set"
        while True:
            at = self.at
            self.name("a column")
            self.must("=")
            self.sets.append((at, self.expression()))
            if not self.take(","):
                break
        self.target = (core.entries[0][1], [at for at, _ in self.sets])
        if self.take("where"):
            self.condition("where")

    def delete(self) -> None:
        """Reads a DELETE."""
        self.must("delete", "from")
        core = self.written()
        self.target = (core.entries[0][1], [])
        if self.take("where"):
            self.condition("where")

    def written(self) -> Core:
        """Reads the table that is written."""
        self.cores.append(Core(self.at))
        self.cores[-1].has_from = True
        self.entry(self.cores[-1])
        return self.cores[-1]

    def declare(self) -> None:
        """Reads a DECLARE."""
        self.must("declare")
        self.name("the name of a cursor")
        self.take("insensitive")
        if self.take("no"):
            self.must("scroll")
        self.must("cursor")
        if self.take("with"):
            self.must("hold")
        self.must("for")
        self.select()

    def fetch(self) -> None:
        """Reads a FETCH."""
        self.must("fetch")
        if self.key() == "next" and self.key(1) in ("", ";") and self.found[self.at + 1].kind in ("end", "mark"):
            self.at += 1
            return
        if self.is_number():
            self.at += 1
        else:
            self.take("next") or self.take("all")
        self.take("from") or self.take("in")
        self.name("the name of a cursor")

    def close(self) -> None:
        """Reads a CLOSE."""
        self.must("close")
        self.name("the name of a cursor")

    def create(self) -> None:
        """Reads a CREATE."""
        self.must("create")
        if self.take("foreign"):
            if self.take("data"):
                self.must("wrapper")
                self.name()
                self.must("handler")
                self.name()
            elif self.take("table"):
                self.create_table()
            else:
                raise self.fail("DATA WRAPPER or TABLE")
        elif self.take("server"):
            self.if_not_exists()
            self.name()
            for word in ("type", "version"):
                if self.take(word):
                    self.text()
            self.must("foreign", "data", "wrapper")
            self.name()
            self.options()
        elif self.take("user"):
            self.must("mapping")
            self.if_not_exists()
            self.of_user()
            self.options()
        else:
            raise self.fail("FOREIGN DATA WRAPPER, SERVER, USER MAPPING or FOREIGN TABLE")

    def create_table(self) -> None:
        """Reads what follows CREATE FOREIGN TABLE."""
        self.if_not_exists()
        self.name()
        self.must("(")
        self.calls.append(self.at - 1)
        while True:
            self.declared.append(self.at)
            self.name("a column")
            self.name("a type")
            self.options()
            if self.take("not"):
                self.must("null")
            else:
                self.take("null")
            if not self.take(","):
                break
        self.must(")")
        self.calls.pop()
        self.must("server")
        self.name()
        self.options()

    def if_not_exists(self) -> None:
        """Reads IF NOT EXISTS, which may be left out."""
        if self.key() == "if" and self.key(1) == "not":
            self.must("if", "not", "exists")

    def of_user(self) -> None:
        """Reads the user and the server of a mapping."""
        self.must("for")
        if not (self.take("user") or self.take("current_user")):
            self.name("the name of a user")
        self.must("server")
        self.name()

    def options(self) -> None:
        """Reads OPTIONS, which may be left out."""
        if self.key() != "options":
            return
        self.must("options", "(")
        self.calls.append(self.at - 1)
        while True:
            self.label()
            self.text()
            if not self.take(","):
                break
        self.must(")")
        self.calls.pop()

    def drop(self) -> None:
        """Reads a DROP."""
        self.must("drop")
        is_mapping = self.take("user", "mapping")
        if not (is_mapping or self.take("server") or self.take("foreign", "data", "wrapper") or self.take("foreign", "table")):
            raise self.fail("FOREIGN DATA WRAPPER, SERVER, USER MAPPING or FOREIGN TABLE")
        if self.key() == "if" and self.key(1) == "exists":
            self.at += 2
        if is_mapping:
            return self.of_user()
        self.name()
        self.take("restrict")

    # Expressions

    def expression(self) -> Part:
        """Reads an expression."""
        if len(self.calls) > MOST_HIGH:
            raise TooHigh(self.at)
        begin, parts = self.at, [self.conjunction()]
        while self.take("or"):
            parts.append(self.conjunction())
        part = self.joined(begin, parts)
        if part.high > self.high[0]:
            self.high = (part.high, begin)
        return part

    def conjunction(self) -> Part:
        """Reads a chain of AND."""
        begin, parts = self.at, [self.negation()]
        while self.take("and"):
            parts.append(self.negation())
        return self.joined(begin, parts)

    def joined(self, begin: int, parts: List[Part]) -> Part:
        """A chain of conditions as one; the part itself where it is alone."""
        if len(parts) == 1:
            return parts[0]
        self.checks += [Check("condition", it.begin, (it, )) for it in parts]
        return Part("boolean", begin, self.at, max(it.high for it in parts) + 1)

    def negation(self) -> Part:
        """Reads a test with any number of NOT before it."""
        begin = self.at
        while self.take("not"):
            pass
        count = self.at - begin
        part = self.test()
        if not count:
            return part
        self.checks.append(Check("condition", part.begin, (part, )))
        return Part("boolean", begin, self.at, part.high + count)

    def test(self) -> Part:
        """Reads a comparison, with IS after it or not."""
        begin, part = self.at, self.ranged()
        if self.key() in COMPARISONS:
            at = self.at
            self.at += 1
            other = self.ranged()
            self.checks.append(Check("compare", at, (part, other)))
            part = Part("boolean", begin, self.at, max(part.high, other.high) + 1)
        if self.take("is"):
            self.take("not")
            if self.key() not in ("null", "true", "false", "unknown"):
                raise self.fail("NULL, TRUE, FALSE or UNKNOWN")
            if self.key() != "null":
                self.checks.append(Check("condition", part.begin, (part, )))
            self.at += 1
            part = Part("boolean", begin, self.at, part.high + 1)
        return part

    def ranged(self) -> Part:
        """Reads a sum, with BETWEEN, IN or LIKE after it or not."""
        begin, part = self.at, self.sum()
        ahead = 1 if self.key() == "not" else 0
        word, at = self.key(ahead), self.at + ahead
        if word not in ("between", "in", "like"):
            return part
        self.at += ahead + 1
        if word == "between":
            low = self.sum()
            self.must("and")
            parts = [part, low, self.sum()]
        elif word == "in":
            self.must("(")
            self.calls.append(self.at - 1)
            parts = [part, *self.list()]
            self.must(")")
            self.calls.pop()
        else:
            self.text()
            parts = [part]
        self.checks.append(Check("like" if word == "like" else "compare", at, tuple(parts)))
        return Part("boolean", begin, self.at, max(it.high for it in parts) + 1 + ahead)

    def list(self) -> List[Part]:
        """Reads expressions between commas."""
        parts = [self.expression()]
        while self.take(","):
            parts.append(self.expression())
        return parts

    def sum(self) -> Part:
        """Reads products with + and - between them."""
        begin, part = self.at, self.product()
        while self.key() in ("+", "-"):
            part = self.operation(begin, part, self.product)
        return part

    def product(self) -> Part:
        """Reads factors with *, / and % between them."""
        begin, part = self.at, self.factor()
        while self.key() in ("*", "/", "%"):
            part = self.operation(begin, part, self.factor)
        return part

    def operation(self, begin: int, part: Part, operand: Callable[[], Part]) -> Part:
        """Reads a sign and what follows it."""
        at = self.at
        self.at += 1
        other = operand()
        self.checks.append(Check("arithmetic", at, (part, other)))
        return Part("integer", begin, self.at, max(part.high, other.high) + 1)

    def factor(self) -> Part:
        """Reads a primary with any number of minuses before it; one before a number is the number's."""
        begin = self.at
        while self.take("-"):
            pass
        count, is_literal = self.at - begin, self.kind() == "number"
        part = self.primary()
        if not count:
            return part
        self.checks.append(Check("arithmetic", begin, (part, )))
        return Part("integer", begin, self.at, part.high + count - is_literal)

    def primary(self) -> Part:
        """Reads a literal, a column, a call or an expression in parentheses."""
        begin, it = self.at, self.found[self.at]
        if self.is_number() or it.kind in ("text", "parameter"):
            self.at += 1
            return Part({"number": "integer", "text": "text"}.get(it.kind, ""), begin, self.at)
        if self.take("true") or self.take("false"):
            return Part("boolean", begin, self.at)
        if self.take("null"):
            return Part("null", begin, self.at)
        if self.take("("):
            self.calls.append(begin)
            part = self.expression()
            self.must(")")
            self.calls.pop()
            return part._replace(begin=begin, end=self.at, high=part.high + 1)
        if self.is_name() and self.found[begin + 1].raw == "(":
            return self.call()
        if not self.is_name():
            raise self.fail("a value")
        return self.column()

    def call(self) -> Part:
        """Reads a call."""
        begin, name = self.at, self.name().value
        self.must("(")
        self.calls.append(begin)
        is_aggregate = name in AGGREGATES
        inside, self.inside = self.inside, self.inside + is_aggregate
        parts: List[Part] = []
        is_star = self.take("*")
        if not is_star and self.key() != ")":
            parts = self.list()
        self.must(")")
        self.calls.pop()
        self.inside = inside
        high = max((it.high for it in parts), default=0) + 1
        part = Part("integer" if name in ("count", "sum") else "", begin, self.at, high, None, len(self.cores) - 1)
        if name in ("min", "max") and len(parts) == 1:
            part = part._replace(kind=parts[0].kind, column=parts[0].column)
        self.checks.append(Check("call", begin, tuple(parts)))
        if is_aggregate:
            self.aggregates.append(Use(begin, part.core, self.clause, inside > 0, part))
        return part


STATEMENTS = {"select": Grammar.select, "insert": Grammar.insert, "update": Grammar.update, "delete": Grammar.delete,
              "declare": Grammar.declare, "fetch": Grammar.fetch, "close": Grammar.close, "create": Grammar.create, "drop": Grammar.drop}
