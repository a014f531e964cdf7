"""COPY (query) TO STDOUT and COPY table [(columns)] TO STDOUT, in the forms text and csv."""
from typing import TYPE_CHECKING, List, NamedTuple, Sequence, Tuple

from .. import sql
from ..advice import advice
from ..sql import Token
from .messages import COPY_DONE, Refused, complete, copy_out, message
from .output import FULL, names_in
from .rows import copy_rows, csv_field, csv_rows, slices
from .sentences import refusal
from .statements import bare

if TYPE_CHECKING:
    from .session import Session

USAGE = "COPY (SELECT ..) TO STDOUT, or COPY table TO STDOUT, WITH (FORMAT csv, HEADER) where it is CSV"
OPTION_WORDS = frozenset("with format csv text header true on delimiter null encoding utf8 quote".split())
SWITCHES = ("true", "on", "1", "false", "off", "0")


class Copy(NamedTuple):
    query: List[Token]
    is_csv: bool
    has_header: bool


def read(found: Sequence[Token], database: str) -> Copy:
    """What a COPY requests. Fails with Refused where it is none of those that there are."""
    at = next(iter(sql.places(found, {"to", "from"})), None)
    if at is None or at + 1 >= len(found) or at < 2 or (found[at].value, found[at + 1].value) != ("to", "stdout"):
        raise Refused("0A000", "this COPY is not supported", USAGE + "; rows are written by INSERT")
    inner = found[1:at]
    if inner[0].raw == "(":
        query = list(inner[1:-1])
    else:
        table = bare(inner, database)
        query = [sql.Token("word", "SELECT", "select"), *(table[2:-1] or [sql.Token("mark", "*", "*")]),
                 sql.Token("word", "FROM", "from"), table[0]]
    if not query or query[0].value != "select":
        raise Refused("0A000", "COPY takes a SELECT or a table", USAGE)
    is_csv, has_header = options(found[at + 2:])
    return Copy(bare(query, database), is_csv, has_header)


def options(found: Sequence[Token]) -> Tuple[bool, bool]:
    """Whether the form is csv, and whether there is a header. Fails with Refused where another option is requested, unless it says what is so
    anyway."""
    words = [it.value for it in found if it.raw not in ("(", ")", ",", "=")]
    is_csv = "csv" in words
    has_header = "header" in words and words[words.index("header") + 1:][:1] not in (["false"], ["off"], ["0"])
    usual = {"delimiter": "," if is_csv else "\t", "null": "" if is_csv else "\\N", "quote": '"', "encoding": "utf8"}
    at = 0
    while at < len(words):
        it, behind = words[at], words[at + 1:at + 2]
        if it in usual and behind and behind[0].lower().replace("utf-8", "utf8") == usual[it]:
            at += 2
        elif it in ("with", "format", "csv", "text", "header") or at and words[at - 1] == "header" and it in SWITCHES:
            at += 1
        else:
            raise Refused("0A000", f"COPY has no option {it} with this value here", USAGE)
    return is_csv, has_header


class CopyOutput:
    """Makes CopyData messages, one for each row."""

    def __init__(self, session: "Session", copy: Copy) -> None:
        self.outlet, self.copy, self.prefix = session.outlet, copy, b"%d R\t" % session.sid
        self.width, self.count, self.is_cut = 0, 0, False

    def begin(self, header: bytes) -> None:
        self.width = header.count(b"\t") + 1
        self.outlet.add(copy_out(self.width))
        if self.copy.has_header:
            fields = [csv_field(it.encode().replace(b"\\", b"\\\\"))
                      for it in names_in(header)] if self.copy.is_csv else header.split(b"\t")
            self.outlet.add(message(b"d", (b"," if self.copy.is_csv else b"\t").join(fields) + b"\n"))

    def take(self, header: bytes, rows: bytes) -> None:
        if not self.width:
            self.begin(header)
        for piece in slices(rows):
            if not self.is_cut:
                made, count = csv_rows(piece, self.width) if self.copy.is_csv else copy_rows(piece, self.prefix)
                self.count += count
                self.is_cut = not self.outlet.stream(made)


async def copy_out_of(session: "Session", found: Sequence[Token]) -> None:
    """Runs one COPY .. TO STDOUT."""
    copy = read(found, session.database)
    output = CopyOutput(session, copy)
    text = sql.line(copy.query)
    reply = await session.ask(text.encode(), output.take)
    if reply.code:
        found = advice(reply.code, text, session.hub.objects.tables) if len(text) <= sql.MOST_KEPT_CHARACTERS else None
        raise refusal(reply.code, reply.name, found._replace(begin=-1) if found else None)
    if output.is_cut:
        raise FULL
    if not output.width:
        output.begin(reply.header or b"")
    session.outlet.add(COPY_DONE + complete(f"COPY {output.count}"))
