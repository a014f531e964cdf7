"""The statements of a client's text: where each goes, and the request line for it. What statements of one shape share is made
once."""
import re
from typing import Dict, FrozenSet, List, Optional, Sequence, Tuple

from .. import sql
from ..sql import Token
from .asked import is_of_catalogue
from .objects import Objects

SESSION, CATALOGUE, COPY, ENGINE = "session", "catalogue", "copy", "engine"
OF_SESSION: FrozenSet[str] = frozenset("begin start commit end rollback abort savepoint release set reset show discard deallocate "
                                       "listen unlisten".split())
WRITES = frozenset(("insert", "update", "delete"))
CHANGES = frozenset(("create", "drop"))
MOST_KEPT = 4096
TEXTS = re.compile(r"'[^'\n\0]*(?:''[^'\n\0]*)*'")
NUMBERS = re.compile(r"(?<![\w$])[0-9]+(?!\w)")
NOT_PLAIN = re.compile(r"""["\n\r\0;$:\\]|--|/\*""")


class Form:
    """What the statements of one shape share: the types of their outputs, once they are known."""
    __slots__ = ("types", "names")

    def __init__(self) -> None:
        self.types: Optional[Tuple[int, ...]] = None
        self.names: Optional[Tuple[str, ...]] = None


class Statement:
    """One statement. `found` are its tokens, None where its form is known whole; `line` is its request's text. `source` is the client's text,
    and which of its statements this is, where that is kept."""
    __slots__ = ("kind", "verb", "found", "line", "form", "source")

    def __init__(self, kind: str, verb: str, found: Optional[Sequence[Token]], line: bytes, form: Form) -> None:
        self.kind, self.verb, self.found, self.line, self.form = kind, verb, found, line, form
        self.source: Optional[Tuple[str, int]] = None

    def of(self, text: str, number: int) -> "Statement":
        """Itself, as the statement of this number in a client's text."""
        self.source = (text, number)
        return self


class Statements:
    """Makes statements of texts, and keeps them until an object is made or dropped."""

    def __init__(self, objects: Objects) -> None:
        self.objects, self.version = objects, -1
        self.by_text: Dict[Tuple[str, str], List[Statement]] = {}
        self.by_shape: Dict[Tuple[str, str], Statement] = {}
        self.forms: Dict[Tuple[str, ...], Form] = {}

    def renew(self) -> None:
        """Forgets all where objects have changed, or where much is kept."""
        if self.version != self.objects.version:
            self.version = self.objects.version
            self.by_text, self.by_shape, self.forms = {}, {}, {}
        for kept in (self.by_text, self.by_shape, self.forms):
            if len(kept) > MOST_KEPT:
                kept.clear()

    def of_parts(self, parts: Sequence[Sequence[Token]], database: str) -> List[Statement]:
        """The statements of a text that was cut already. Fails with Unsayable."""
        return [self.made(it, database) for it in parts]

    def of(self, text: str, database: str) -> List[Statement]:
        """The statements of a text. Fails with Unsayable."""
        key = (text, database)
        made = self.by_text.get(key)
        if made is not None and self.version == self.objects.version:
            return made
        self.renew()
        shape = (NUMBERS.sub("0", TEXTS.sub("''", text)), database)
        model = self.by_shape.get(shape)
        if model is not None and model.form.types is not None:
            return [Statement(ENGINE, model.verb, None, text.encode(), model.form).of(text, 0)]
        made = [it.of(text, at) for at, it in enumerate(self.of_parts(sql.statements(text), database))]
        if len(made) == 1 and made[0].kind == ENGINE and made[0].verb == "select" and is_plain(shape[0], text, made[0]):
            self.by_shape[shape] = made[0]
        self.by_text[key] = made
        return made

    def made(self, found: Sequence[Token], database: str) -> Statement:
        """The statement of some tokens, which are not empty."""
        verb = found[0].value if found[0].kind == "word" else ""
        second = found[1].value if len(found) > 1 else ""
        if verb in OF_SESSION or (verb, second) == ("close", "all"):
            return Statement(SESSION, verb, found, b"", Form())
        if verb == "copy":
            return Statement(COPY, verb, found, b"", Form())
        if verb in ("select", "with") and is_of_catalogue(found, self.objects.tables):
            return Statement(CATALOGUE, verb, found, b"", Form())
        found = own_forms(bare(found, database))
        return Statement(ENGINE, verb, found, sql.line(found).encode(), self.form(found))

    def form(self, found: Sequence[Token]) -> Form:
        """What statements of this shape share. That of a long one is kept for no other."""
        self.renew()
        if len(found) > sql.MOST_KEPT_TOKENS:
            return Form()
        return self.forms.setdefault(sql.shape(found), Form())


def bare(found: Sequence[Token], database: str) -> List[Token]:
    """Tokens without `public.` and `database.public.` before names."""
    return list(sql.without_schema(list(found), ("public", ), (database, )))


def is_plain(shape: str, text: str, statement: Statement) -> bool:
    """Whether a text of this shape is its own request line: nothing was left out of it and nothing put in its place."""
    if NOT_PLAIN.search(shape) or not text.isprintable():
        return False
    return "".join(text.split()) == "".join(statement.line.decode().split())


def own_forms(found: List[Token]) -> List[Token]:
    """PostgreSQL's forms that mean what a form of the program means: FETCH FORWARD n, and DECLARE .. WITHOUT HOLD."""
    verb = found[0].value
    if verb == "fetch" and len(found) > 2 and found[1].value == "forward" and found[1].kind == "word":
        return [found[0], *found[2:]]
    if verb == "declare":
        at = next((at for at, it in enumerate(found) if (it.kind, it.value) == ("word", "without")), None)
        if at is not None and found[at + 1:at + 2] and found[at + 1].value == "hold":
            return [*found[:at], *found[at + 2:]]
    return found


def query_of(found: Sequence[Token]) -> Sequence[Token]:
    """The query of a DECLARE; nothing where there is none."""
    at = next((at for at, it in enumerate(found) if (it.kind, it.value) == ("word", "select")), len(found))
    return found[at:]
