"""Which form of SQL a text has that this profile lacks: from the first token that no statement of the grammar has at its place, to a
row of `rows.LACKING`."""
from __future__ import annotations

import re
from typing import Callable, Dict, List, NamedTuple, Optional, Sequence, Tuple

from ..sql import RESERVED, Placed
from .grammar import COMPARISONS, STATEMENTS, Failure

Found = Tuple[str, int]  # the key of a row, and the place of the token that is to be pointed at

# By the word that comes first in a statement.
VERBS: Dict[str, str] = {
    **dict.fromkeys("explain show set begin start commit rollback savepoint release end abort alter grant revoke copy analyze vacuum lock "
                    "prepare execute "
                    "deallocate call do comment reset discard listen notify reindex cluster checkpoint pragma attach detach".split(),
                    "statements"),
    **dict.fromkeys("describe desc use".split(), "commands"), **dict.fromkeys("replace upsert merge truncate".split(), "upsert"),
    **dict.fromkeys("table values".split(), "for update"), "with": "query in from", "import": "import", "move": "cursors",
    "from": "for update", "(": "core", "\\": "commands", ".": "commands"}
# By the word after CREATE.
CREATED: Dict[str, str] = dict.fromkeys("table temp temporary unlogged view materialized or index unique schema database extension "
                                        "function procedure trigger "
                                        "sequence type domain role policy rule".split(), "statements")
# By the token that cannot be where it is, wherever it is; those that depend on more have rules of their own.
TOKENS: Dict[str, str] = {
    "case": "case", "when": "case", "then": "case", "else": "case", "with": "query in from", "right": "right join", "full": "full join",
    "natural": "using", "using": "using", "except": "union", "intersect": "union", "current_user": "functions", "::": "cast",
    "||": "operators",
    "^": "operators", "&": "operators", "|": "operators", "#": "operators", "@": "operators", "~": "like", "!": "like", "`": "quotes",
    "[": "quotes",
    "]": "quotes", "?": "placeholder", ":": "placeholder", "$": "placeholder", "{": "placeholder", "over": "over", "filter": "filter",
    "qualify": "over",
    "returning": "returning", "collate": "order", "escape": "like", "tablesample": "function in from", "symmetric": "between symmetric",
    "minus": "union", "isnull": "isnull", "notnull": "isnull", "cascade": "import", "rollup": "group by", "cube": "group by",
    "grouping": "group by",
    "ilike": "like", "similar": "like", "regexp": "like", "rlike": "like", "glob": "like", "match": "like", "lateral": "query in from",
    "apply": "query in from", "window": "over", "conflict": "returning", "fetch": "fetch first"}
# By a word that was read as a name, an alias or a column, right before the token that cannot be there.
READ_AS_NAME: Dict[str, str] = {
    **{it: TOKENS[it] for it in "over filter qualify returning collate escape tablesample symmetric minus isnull notnull rollup cube "
       "grouping ilike similar "
       "regexp rlike glob match lateral window".split()},
    **dict.fromkeys("date time timestamp timestamptz interval datetime".split(), "literals"), "array": "literals", "row": "rows",
    "top": "fetch first",
    "semi": "join parentheses", "anti": "join parentheses", "asof": "join parentheses", "only": "function in from",
    "unnest": "function in from",
    "generate_series": "function in from", "apply": "query in from", "within": "aggregates", "at": "dates", "extract": "dates",
    "if": "case"}
CALLS: Dict[str, str] = {"cast": "cast", "try_cast": "cast", "convert": "cast", "extract": "dates", "substring": "text forms",
                         "trim": "text forms",
                         "position": "text forms", "overlay": "text forms"}
ORDER = ["select", "from", "where", "group", "having", "union", "order", "limit"]
KEYWORDS = [*ORDER, "insert", "into", "values", "update", "delete", "create", "foreign", "server", "wrapper", "mapping", "options",
            "handler", "distinct",
            "between", "offset", "inner", "outer", "cross", "left", "join", "declare", "cursor", "fetch", "close", "like", "null", "desc",
            "drop"]


class Place(NamedTuple):
    """The tokens of a text, and the first of them that no statement has at its place."""
    found: Sequence[Placed]
    at: int
    wanted: str
    calls: Sequence[int]

    def it(self, ahead: int = 0) -> Placed:
        """The token at the place, or some tokens later; one of kind `end` beyond the list."""
        at = self.at + ahead
        return self.found[at] if 0 <= at < len(self.found) else END

    def key(self, ahead: int = 0) -> str:
        """The word or mark at the place, or some tokens later; nothing for another token."""
        it = self.it(ahead)
        return it.value if it.kind in ("word", "mark") else ""

    def word(self, ahead: int = 0) -> str:
        """As `key`, for words alone."""
        return self.it(ahead).value if self.it(ahead).kind == "word" else ""

    @property
    def first(self) -> str:
        """The word or mark that the text begins with; nothing where it is another token, or there is none."""
        return self.key(-self.at)

    @property
    def call(self) -> str:
        """The name of the innermost call that is open; nothing within other parentheses."""
        return self.found[self.calls[-1]].value if self.calls and self.found[self.calls[-1]].kind == "word" else ""

    def touches(self, ahead: int) -> bool:
        """Whether nothing parts the token some places later from the one before it."""
        return self.it(ahead - 1).end == self.it(ahead).begin


END = Placed("end", "", "", -1, -1)
FAR = 40  # tokens before the place, among which another comparison is looked for


def first_of(rules: Sequence[Callable[[Place], Optional[Found]]], found: Sequence[Placed], failure: Failure) -> Optional[Found]:
    """What the first rule that applies says of a text that fails here, or None where none applies."""
    place = Place(found, failure.at, failure.wanted, failure.calls)
    return next((got for got in (rule(place) for rule in rules) if got), None)


def lacking(found: Sequence[Placed], failure: Failure) -> Optional[Found]:
    """The row for a text that fails here, or None where no form of another SQL is seen."""
    return first_of(RULES, found, failure)


# The rules, in the order in which they are tried. Each returns a form that it sees, or None.


def of_kind(place: Place) -> Optional[Found]:
    """A token that is none of this profile's, whatever is before it."""
    it = place.it()
    if it.kind in ("comment", "escaped", "dollar"):
        return ("comment" if it.kind == "comment" else "literals"), place.at
    if it.kind == "placeholder":
        return "placeholder", place.at
    if it.kind == "unclosed" and it.raw[0] == "/":
        return "comment", place.at
    if it.kind == "number" and not it.raw.isdigit():
        return ("literals", place.at) if re.fullmatch(r"\d+[eE]\d*|0[xXbBoO]\w+|\d[\d_]+", it.raw) else None
    if it.kind == "word" and not it.raw.isascii():
        has_blank, has_quote = any(map(str.isspace, it.raw)), any(mark in it.raw for mark in "‘’“”„«»")
        return ("blank" if has_blank else "quotes" if has_quote else "letters"), place.at
    return None


def of_statement(place: Place) -> Optional[Found]:
    """The first words of a statement."""
    first = place.first
    if place.key(-1) == ";" and place.wanted == "the end":
        return "two statements", place.at - 1
    if place.at == 0:
        return (VERBS[first], 0) if first in VERBS else None
    second = place.found[1].value if len(place.found) > 1 and place.found[1].kind in ("word", "mark") else ""
    if first == "create" and place.at == 1 and second in CREATED:
        words = {it.value for it in place.found[:12] if it.kind == "word"}
        return ("select into" if {"as", "select"} <= words and "view" not in words else "statements"), 1
    if first == "drop" and place.at == 1 and second in (*CREATED, "table", "view"):
        return "drop", 1
    if first == "drop" and place.key() == ",":
        return "import", place.at
    if place.word(-1) == "options" and place.wanted == "(" or place.calls and place.found[place.calls[-1] - 1].value == "options":
        return "options", place.at
    if first == "create" and second == "foreign" and (place.calls or place.key() == "("):
        return "columns", place.at
    if first == "insert" and place.at == 1 or first == "delete" and place.at == 1:
        return "into", place.at
    return of_write(place, first)


def of_write(place: Place, first: str) -> Optional[Found]:
    """The forms of INSERT, UPDATE and DELETE."""
    key = place.key()
    if first in ("insert", "update", "delete"):
        if key == "default" or place.word(-1) == "default":
            return "default", place.at if key == "default" else place.at - 1
        if key == "on" and place.word(1) in ("conflict", "duplicate") or key == "returning":
            return "returning", place.at
        if first != "insert" and key in ("order", "limit"):
            return "write limit", place.at
        if first == "update" and key == "from" or first == "delete" and key == "using":
            return "returning", place.at
        if first == "insert" and (key == "set" or key == "select" and place.calls and place.found[place.calls[-1]].raw == "("):
            return ("set row" if key == "set" else "core"), place.at
    if first == "update" and place.word(-1) == "set" and key == "(" or first == "update" and place.wanted == "=":
        return "set row", place.at
    return None


def of_cursor(place: Place) -> Optional[Found]:
    """The forms of cursors."""
    first = place.first
    if first == "fetch" and place.at <= 3 or first == "declare" and (place.key() in ("scroll", "without") or place.word(-1) in ("scroll",
        "binary", "asensitive")):
        at = place.at if place.key() in ("scroll", "without") else max(1, place.at - 1)
        return "cursors", at
    return None


def of_query(place: Place) -> Optional[Found]:
    """A query where none may be, by what is before it."""
    key = place.key()
    if key == "(" and place.word(-1) in ("from", "join", ",", "lateral", "apply") or key == "(" and place.wanted == "the name of a table":
        is_after_word = place.word(-1) in ("lateral", "apply")
        return ("query in from" if place.word(1) in ("select", "values", "with", "(") else "join parentheses"), place.at - is_after_word
    if key in ("select", "with", "values") and place.calls:
        opened = place.calls[-1]
        before = place.found[opened - 1].value if opened else ""
        name = place.call
        if name == "exists":
            return ("not in query" if before == "not" else "in query"), opened
        if name in ("any", "some", "all"):
            return "in query", opened
        if before == "in":
            is_not = opened > 1 and place.found[opened - 2].value == "not"
            return ("not in query" if is_not else "in query"), opened - (2 if is_not else 1)
        return "scalar query", place.at
    if key == "(" and place.word(-1) == "all" and place.word(-2) == "union":
        return "core", place.at
    if key == "all" and place.it(1).raw == "(":
        return "any", place.at
    return None


def of_union(place: Place) -> Optional[Found]:
    """UNION without ALL, and a core that goes on after its end."""
    if place.word(-1) == "union":
        return "union", place.at - 1
    if place.key() == "union" and any(it.kind == "word" and it.value in ("order", "limit", "offset") for it in place.found[:place.at]):
        return "core", place.at
    return None


def of_call(place: Place) -> Optional[Found]:
    """What comes within the parentheses of a call."""
    key, name = place.key(), place.call
    if key == "distinct" and place.calls and place.calls[-1] == place.at - 2:
        return ("count distinct" if name in ("count", "sum") else "aggregates"), place.at
    if key == "order" and name:
        return "aggregates", place.at
    if name in CALLS:
        return CALLS[name], place.calls[-1]
    return None


def of_literal(place: Place) -> Optional[Found]:
    """Decimals, and words before a text."""
    it, before = place.it(), place.it(-1)
    if it.raw == "." and (place.it(1).kind == "number" and place.touches(1) or before.kind == "number" and place.touches(0)):
        return "literals", place.at - (before.kind == "number" and place.touches(0))
    if it.kind == "number" and before.raw == "." and place.it(-2).kind == "number":
        return "literals", place.at - 2
    if it.raw == ".":
        is_column = place.it(-2).raw == "."
        return "schema", place.at - (3 if is_column else 1)
    if it.kind == "text" and place.word(-1) in ("e", "n", "b", "x", "u"):
        return "literals", place.at - 1
    if it.raw == "[" and place.word(-1) == "array":
        return "literals", place.at - 1
    return None


def of_operator(place: Place) -> Optional[Found]:
    """Marks that are operators elsewhere, and comparisons without a second operand."""
    key, before = place.key(), place.key(-1)
    if key == "+" and place.wanted == "a value":
        return "plus", place.at
    if key == "=" and before == "=" and place.touches(0):
        return "equals", place.at - 1
    if key == ">" and before == "<=" and place.touches(0):
        return "is distinct", place.at - 1
    if key == ">" and before == "-" and place.touches(0) or key in ("@", "#") and place.key(1) == ">":
        return "json", place.at - (before == "-")
    if key in ("*", "/") and before == key and place.touches(0):
        return "operators", place.at - 1
    if key in ("<", ">") and before == "=" and place.touches(0):
        return "comparisons", place.at - 1
    if key in ("!", "not") and place.key(1) in COMPARISONS:
        return "comparisons", place.at
    if key in ("<", ">") and before == key:
        return "operators", place.at - 1
    if key in COMPARISONS and (before not in (",", "(", "") or place.it(-1).kind not in ("mark", "word")):
        is_second = any(it.raw in COMPARISONS for it in place.found[max(0, place.at - FAR):place.at])
        return ("chain", place.at) if is_second and place.wanted not in ("a value", "=") else None
    if key == "#" and place.at and place.it(-1).kind != "mark":
        return "comment", place.at
    return None


def of_list(place: Place) -> Optional[Found]:
    """Commas and parentheses."""
    key = place.key()
    if key == "," and place.word(-2) in ("limit", "offset"):
        return "limit comma", place.at
    if key == "," and place.calls and place.found[place.calls[-1]].raw == "(":
        return "rows", place.calls[-1]
    if key == ")" and place.word(-2) == "in":
        return "empty list", place.at - 1
    return None


def of_limit(place: Place) -> Optional[Found]:
    """LIMIT and OFFSET of something else than a number."""
    words = place.word(-1), place.word(-2)
    if words[0] in ("limit", "offset") and place.wanted == "a whole number" and place.it().kind != "end":
        return "limit number", place.at
    if words[1] in ("limit", "offset") and place.key() in ("+", "-", "*", "/", "%"):
        return "limit number", place.at
    return None


def of_group(place: Place) -> Optional[Found]:
    """GROUP BY of something else than columns."""
    words = [it.value if it.kind == "word" else "" for it in place.found[:place.at]]
    last = max((at for at, it in enumerate(words) if it in ("group", "having", "union", "order", "limit", "where")), default=-1)
    if last < 0 or words[last] != "group" or place.key() in ("having", "order", "where", "limit") or place.it().kind == "end":
        return None
    is_so = place.it().kind in ("number", "text") or place.key() in ("+", "-", "*", "/", "%", "(", "all", "case", ")")
    before = place.at - (place.key() == "(" and place.it(-1).kind == "word" and place.word(-1) != "by")
    return ("group by", before) if is_so else None


def of_like(place: Place) -> Optional[Found]:
    """LIKE of what is no literal."""
    return ("like column",
            place.at) if place.word(-1) == "like" and place.wanted.startswith("a text") and place.it().kind != "end" else None


def of_is(place: Place) -> Optional[Found]:
    """IS before another word than its own."""
    before = place.word(-2) if place.word(-1) == "not" else place.word(-1)
    if before != "is":
        return None
    return ("is distinct" if place.key() == "distinct" else "is value"), place.at


def of_on(place: Place) -> Optional[Found]:
    """ON where none is, and a join without one."""
    if place.key() == "on" and place.word(-1) == "distinct":
        return "distinct on", place.at
    if place.key() == "using":
        is_order = any(it.kind == "word" and it.value == "order" for it in place.found[:place.at])
        return ("order" if is_order else "using"), place.at
    if place.wanted == "ON" and place.key() not in TOKENS and place.key() != "(" and place.word(-1) not in READ_AS_NAME:
        return "join without on", place.at
    if place.key() == "(" and place.it(-1).kind in ("word",
                                                    "quoted") and place.word(-1) not in READ_AS_NAME and place.word(-1) not in RESERVED:
        is_alias = any(it.kind == "word" and it.value in ("from", "join") for it in place.found[max(0, place.at - 4):place.at])
        return ("alias columns", place.at) if is_alias and place.word(-2) not in ("from", "join") else \
            ("function in from", place.at - 1) if is_alias else None
    return None


def of_for(place: Place) -> Optional[Found]:
    """FOR UPDATE, SELECT INTO, FETCH FIRST, OFFSET .. FETCH."""
    key = place.key()
    if key == "for" and place.word(1) in ("update", "share", "no", "key"):
        return "for update", place.at
    if key == "into" and place.first == "select":
        return "select into", place.at
    return None


def of_table(place: Place) -> Optional[Found]:
    """A reserved word for the name of a table, as a file `case.csv` has it."""
    is_table = place.wanted == "the name of a table" and place.word() in RESERVED and place.word() not in ("select", *ORDER)
    return ("reserved", place.at) if is_table and (place.it(1).kind in ("end", "word") or place.key(1) in (",", ";", ")")) else None


def of_words(place: Place) -> Optional[Found]:
    """A word or mark that another SQL has."""
    before = place.word(-1)
    is_label = place.word(-2) == "as"
    if before in READ_AS_NAME and not is_label and place.key() != "." and is_operand(place):
        return READ_AS_NAME[before], place.at - 1
    key = place.key()
    if key == "not" and place.it(1).kind == "word" and place.word(1) in READ_AS_NAME:
        return READ_AS_NAME[place.word(1)], place.at + 1
    if key in TOKENS and (key not in ("end", "else", "when", "then")):
        return TOKENS[key], place.at
    if key in ("join", ) and before in READ_AS_NAME:
        return READ_AS_NAME[before], place.at - 1
    return None


def is_operand(place: Place) -> bool:
    """Whether what comes after a word may be what the word works on elsewhere."""
    return place.it().kind in ("text", "quoted", "word", "number", "escaped") or place.key() in ("(", "[", ",",
        ";") or place.it().kind == "end"


def of_reserved(place: Place) -> Optional[Found]:
    """A reserved word where a name or a value was wanted."""
    key = place.word()
    if key not in RESERVED or place.it().kind != "word":
        return None
    is_wanted = place.wanted in ("a value", "a name", "a column", "the name of a table", "a type", "the name of a cursor",
                                 "the name of a user")
    follows = place.key(1) in ("", ",", ".", ")", "=", "<", ">", "<>", "from", ";", "as", "where", "is", "in", "asc", "desc", "and", "or")
    is_clause = key in ("from", "where", "group", "having", "union", "limit", "offset", "and", "or", "as", "on", "by", "select", "insert",
                        "set", "values", "null",
                        "is", "in", "like", "between", "distinct", "all", "not")
    is_alias = key in ("user", "end") and place.wanted == "the end"
    return ("reserved", place.at) if (is_wanted or is_alias) and follows and not is_clause else None


RULES: List[Callable[[Place], Optional[Found]]] = [
    of_kind, of_statement, of_cursor, of_query, of_union, of_call, of_literal, of_operator, of_list, of_limit, of_like, of_is, of_on,
    of_group, of_for, of_table, of_words,
    of_reserved]


# ---------------------------------------------------------------------------------------------------- slips, which are in no row


def slip(found: Sequence[Placed], failure: Failure) -> Optional[Tuple[str, int]]:
    """What to do about a slip that has no row, as a sentence, and the place of the token that it is about; None where none is seen."""
    return first_of(SLIPS, found, failure)


def unclosed(place: Place) -> Optional[Tuple[str, int]]:
    """A quote or a parenthesis that is not closed."""
    it = place.it()
    if it.kind == "unclosed":
        what = "a text with a quote in it is written 'it''s'" if it.raw[0] == "'" else 'a name ends in a double quote'
        return f"the quote {it.raw[0]} is not closed: {what}", place.at
    if it.kind == "quoted" and not it.value:
        return "a name may not be empty; an empty text is ''", place.at
    is_end = it.kind == "end" or place.key() in (";", *ORDER) or place.it().kind in ("word", "quoted") and place.key() == "as"
    if place.calls and is_end and place.wanted in (")", "a value"):
        return "close the parenthesis", place.calls[-1] + (place.found[place.calls[-1]].raw != "(")
    if place.key() == ")" and not place.calls and place.wanted != "a value":
        return "no parenthesis is open here: take this one away", place.at
    return None


def comma(place: Place) -> Optional[Tuple[str, int]]:
    """A comma too many, or a word too many."""
    if place.it(-1).raw == "," and place.wanted in ("a value", "a column", "the name of a table", "a name", "(") and (
            place.it().kind == "end" or place.key() in (")", ";", ",", *ORDER)):
        return "take the comma away, or write what follows it", place.at - 1
    return None


def semicolon(place: Place) -> Optional[Tuple[str, int]]:
    """A statement that begins within another one."""
    key = place.word()
    if place.at and key in STATEMENTS and place.wanted == "the end" and place.it(-1).raw != "(":
        return f"a semicolon is missing before {key.upper()}", place.at
    return None


def order(place: Place) -> Optional[Tuple[str, int]]:
    """Clauses in the wrong order, or twice."""
    key = place.word()
    if key not in ORDER[1:] or place.wanted not in ("the end", "ON"):
        return None
    before = [it.value for it in place.found[:place.at] if it.kind == "word" and it.value in ORDER]
    if key in before or any(ORDER.index(it) > ORDER.index(key) for it in before):
        return "the order is SELECT, FROM, WHERE, GROUP BY, HAVING, UNION ALL, ORDER BY, LIMIT, each once", place.at
    return None


def misspelt(place: Place) -> Optional[Tuple[str, int]]:
    """A word that is almost a keyword, where a name was read or nothing could be."""
    import difflib
    for ahead in (0, -1, -2):
        word = place.word(ahead)
        if len(word) < 4 or len(word) > 12 or word in RESERVED or ahead and place.word(ahead - 1) == "as" or place.at + ahead < 0:
            continue
        near = difflib.get_close_matches(word, KEYWORDS, 1, 0.74)
        if near and near[0] not in (word, word.rstrip("s")):
            return f"write {near[0].upper()} for {place.it(ahead).raw}", place.at + ahead
    return None


SLIPS: List[Callable[[Place], Optional[Tuple[str, int]]]] = [unclosed, comma, semicolon, order, misspelt]
