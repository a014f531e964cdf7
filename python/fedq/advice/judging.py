"""Why a statement of the grammar is refused by its types, its groups or its numbers of values: the first operator, function or place that
does not take what is there, and what to write. Types of columns are those of the tables that are given; of others nothing is said."""
from __future__ import annotations

import re
from typing import Any, Dict, List, Mapping, NamedTuple, Optional, Sequence, Tuple

from ..sql import Placed
from .grammar import AGGREGATES, Check, Core, Grammar, Part, Use
from .rows import BY_KEY

TYPES = {"smallint": "integer", "integer": "integer", "int": "integer", "bigint": "integer", "text": "text", "boolean": "boolean",
         "bool": "boolean"}
SHOWN = {"integer": "a whole number", "text": "a text", "boolean": "a truth value"}
TRUE, FALSE = ("1", "t", "true", "yes", "y", "on"), ("0", "f", "false", "no", "n", "off")
ORDERS = ", which goes by characters, so '10' is before '9'; fedq-setup --copy makes whole numbers of decimals and of numbers with a unit"
MOST_SHOWN = 40  # characters of an expression
# By the name of a function that is not here.
FUNCTIONS: Dict[str, str] = {
    "avg": "avg", "average": "avg", "mean": "avg", "any": "any", "some": "any", "row": "rows",
    **dict.fromkeys("coalesce nullif ifnull nvl isnull iif if decode greatest least".split(), "case"),
    **dict.fromkeys("date_trunc date_part to_char to_date to_timestamp strftime strptime date datetime julianday year month day hour "
                    "dateadd datediff date_add "
                    "date_sub age make_date timestampdiff monthname dayofweek".split(), "dates"),
    **dict.fromkeys("cast try_cast convert to_number".split(), "cast"), **dict.fromkeys("mod div abs sign".split(), "modulo"),
    **dict.fromkeys("stddev stddev_pop stddev_samp variance var_pop var_samp median mode percentile percentile_cont string_agg "
                    "group_concat listagg array_agg "
                    "json_agg bool_and bool_or every first last any_value total corr first_value last_value".split(), "aggregates"),
    **dict.fromkeys("row_number rank dense_rank lag lead ntile".split(), "over"), **dict.fromkeys("concat concat_ws".split(), "operators"),
    **dict.fromkeys("position instr strpos charindex contains starts_with substr substring trim regexp_like regexp_matches".split(),
                    "text forms"),
    **dict.fromkeys("unnest generate_series".split(), "function in from"), "exists": "in query"}
NAMES: Dict[str, str] = {"default": "default", **dict.fromkeys("current_date current_time current_timestamp localtime localtimestamp "
                                                               "sysdate getdate".split(),
                                                            "dates"), "rownum": "fetch first", "session_user": "functions"}


class Finding(NamedTuple):
    """What was found and what to write, and the tokens that it is about, from `begin` to before `end`."""
    detail: str
    hint: str
    begin: int
    end: int


def function_row(name: str) -> str:
    """What to write instead of a function that is not here."""
    return BY_KEY[FUNCTIONS.get(name, "functions")].hint if name in FUNCTIONS else \
        "the functions are count, sum, min and max; the client does the rest"


class Judge:
    """Judges a statement that the grammar has read, over tables by their names."""

    def __init__(self, grammar: Grammar, tables: Mapping[str, Any]) -> None:
        self.grammar, self.found, self.tables = grammar, grammar.found, tables

    # Types

    def type_of(self, part: Part) -> str:
        """The type of a part; nothing where it is not known."""
        if part.column is None or part.kind:
            return part.kind
        column = self.column_of(part)
        return TYPES.get(column.type, "") if column is not None else ""

    def column_of(self, part: Part) -> Any:
        """The column of the catalogue that a part is; None where that is not known."""
        entries = self.grammar.cores[part.core].entries if part.core < len(self.grammar.cores) else []
        qualifier, name = part.column or ("", "")
        if any(table not in self.tables for _, table, _ in entries):
            return None
        columns = [it for called, table, _ in entries if qualifier in ("", called) for it in self.tables[table].columns if it.name == name]
        return columns[0] if len(columns) == 1 else None

    def text_of(self, begin: int, end: int) -> str:
        """The text of some tokens, cut short."""
        shown = ""
        for at in range(begin, end):
            if len(shown) > MOST_SHOWN:
                return shown[:MOST_SHOWN] + ".."
            parts = at > begin and self.found[at - 1].end < self.found[at].begin
            shown += (" " if parts else "") + self.found[at].raw
        return shown

    def shown(self, part: Part) -> str:
        """A part as it was written."""
        return self.text_of(part.begin, part.end)

    # 42883

    def undefined_function(self) -> Optional[Finding]:
        """The first function that is not here, or operator whose operands it does not take."""
        for check in sorted(self.grammar.checks, key=lambda it: it.at):
            finding = getattr(self, check.what)(check)
            if finding:
                return finding
        return self.only_comparison()

    def only_comparison(self) -> Optional[Finding]:
        """The one comparison of a column whose type is not known with a literal, where nothing else can be what was refused."""
        asked = [it for it in self.grammar.checks if it.what != "condition" and any(not self.type_of(part) for part in it.parts)]
        if len(asked) != 1 or asked[0].what != "compare" or len(asked[0].parts) != 2:
            return None
        check = asked[0]
        known = [(it, self.type_of(it)) for it in check.parts if self.type_of(it) in ("integer", "text")]
        if len(known) != 1 or "" not in map(self.type_of, check.parts):
            return None
        literal, kind = known[0]
        other = next(it for it in check.parts if it is not literal)
        wanted = "integer" if kind == "text" else "text"
        text = self.literal_as(literal, wanted, self.shown(other))
        sides = ((other, wanted), (literal, kind)) if check.parts[0] is other else ((literal, kind), (other, wanted))
        hint = self.way_out(check, *sides) if text else "nothing is converted: write a literal of the column's type"
        return Finding(f"{self.shown(other)} is of another type than {self.shown(literal)}, which is {SHOWN[kind]}", hint, check.at,
                       check.at + 1)

    def condition(self, _check: Check) -> Optional[Finding]:
        """Conditions are 42804."""
        return None

    def call(self, check: Check) -> Optional[Finding]:
        """A function that is not here, or that takes no such argument."""
        name, end = self.found[check.at].value, check.at + 1
        if name not in AGGREGATES:
            return Finding(f"there is no function {name}", function_row(name), check.at, end)
        is_star = self.found[check.at + 2].raw == "*"
        if len(check.parts) != 1 and not (name == "count" and is_star):
            given = "*" if is_star else f"{len(check.parts)} arguments" if check.parts else "no argument"
            hint = f"write {name}(x) with one column or expression"
            if name == "count":
                hint = "count(*) counts rows, count(x) the values that are not NULL"
            return Finding(f"{name} is given {given}", hint, check.at, end)
        kind = self.type_of(check.parts[0]) if check.parts else ""
        if name == "sum" and kind in ("text", "boolean"):
            what = "a sum takes whole numbers: declare the column as integer where its cells are such; " \
                "fedq-setup --copy makes them of decimals and of numbers with a unit" if kind == "text" else \
                f"count the rows: SELECT count(*) .. WHERE {self.shown(check.parts[0])}"
            return Finding(f"{self.shown(check.parts[0])} is {SHOWN[kind]}", what, check.at, end)
        if name in ("min", "max") and kind == "boolean":
            return Finding(f"{self.shown(check.parts[0])} is a truth value",
                           f"{name} takes whole numbers and texts; count(*) with WHERE counts rows",
                           check.at, end)
        return None

    def arithmetic(self, check: Check) -> Optional[Finding]:
        """An operand of a sign that is no whole number."""
        for part in check.parts:
            kind = self.type_of(part)
            if kind not in ("text", "boolean"):
                continue
            literal = self.found[part.begin]
            sign = self.found[check.at].raw
            if literal.kind == "text" and re.fullmatch(r"-?[0-9]+", literal.value) and part.end == part.begin + 1:
                hint = f"write {literal.value} without quotes"
            elif sign == "+" and kind == "text":
                hint = BY_KEY["operators"].hint.partition(";")[0]
            else:
                hint = "nothing is converted: declare the column with the type that its values have"
            return Finding(f"{sign} takes whole numbers, and {self.shown(part)} is {SHOWN[kind]}", hint, check.at, check.at + 1)
        return None

    def like(self, check: Check) -> Optional[Finding]:
        """LIKE of what is no text."""
        kind = self.type_of(check.parts[0])
        if kind not in ("integer", "boolean"):
            return None
        shown = self.shown(check.parts[0])
        hint = f"write {shown} or NOT {shown}"
        if kind == "integer":
            hint = f"compare it: {shown} >= 100 AND {shown} < 200; or declare the column as text"
        return Finding(f"LIKE takes a text, and {shown} is {SHOWN[kind]}", hint, check.at, check.at + 1)

    def compare(self, check: Check) -> Optional[Finding]:
        """Operands that have no one type."""
        known = [(it, self.type_of(it)) for it in check.parts]
        typed = [it for it in known if it[1] in SHOWN]
        other = next((it for it in typed if it[1] != typed[0][1]), None)
        if other is None:
            return None
        left, right = typed[0], other
        detail = f"{self.shown(left[0])} is {SHOWN[left[1]]}, and {self.shown(right[0])} is {SHOWN[right[1]]}"
        return Finding(detail, self.way_out(check, left, right), check.at, check.at + 1)

    def way_out(self, check: Check, left: Tuple[Part, str], right: Tuple[Part, str]) -> str:
        """What to write for operands of two types: the literal of both as one of the other's type."""
        for (other, kind), (literal, _), is_left in ((left, right, False), (right, left, True)):
            text = self.literal_as(literal, kind, self.shown(other))
            if not text:
                continue
            operator = self.found[check.at].raw
            orders = ORDERS if kind == "text" and operator.lower() in ("<", "<=", ">", ">=", "between") else ""
            if operator.lower() in ("in", "between"):
                return f"write {text} for {self.shown(literal)}{orders}"
            if kind == "boolean" and operator == "=":
                return f"write {text}"
            return f"write {text} {operator} {self.shown(other)}{orders}" if is_left else \
                f"write {self.shown(other)} {operator} {text}{orders}"
        return "nothing is converted: declare one of the columns with the type of the other, or compare columns of one type"

    def literal_as(self, part: Part, kind: str, other: str) -> str:
        """A literal as one of another type; nothing where it is no literal, or has no such form. A truth value is compared by itself."""
        found = self.found[part.begin:part.end]
        raw = "".join(it.raw for it in found)
        is_number = bool(re.fullmatch(r"-?[0-9]+", raw))
        if kind == "integer" and len(found) == 1 and found[0].kind == "text":
            text = found[0].value.strip()
            return text if re.fullmatch(r"-?[0-9]+", text) else ""
        if kind == "text" and is_number:
            return f"'{raw}'"
        if kind == "text" and len(found) == 1 and found[0].value in ("true", "false"):
            return f"'{found[0].value}'"
        if kind == "boolean" and len(found) == 1:
            value = found[0].value.lower()
            return other if value in TRUE else f"NOT {other}" if value in FALSE else ""
        return ""

    # 42804

    def mismatch(self) -> Optional[Finding]:
        """A condition that is none, cores whose items have two types, or a value of another type than its column."""
        for check in self.grammar.checks:
            kind = self.type_of(check.parts[0]) if check.what == "condition" else ""
            if kind in ("integer", "text"):
                part = check.parts[0]
                shown = self.shown(part)
                hint = f"write a condition: {shown}" + (" <> 0" if kind == "integer" else f" = 'text', {shown} IS NOT NULL")
                return Finding(f"a condition is wanted, and {shown} is {SHOWN[kind]}", hint, part.begin, part.end)
        return self.written_types() or self.core_types()

    def written_types(self) -> Optional[Finding]:
        """A value that INSERT or UPDATE writes, of another type than its column."""
        table, named = self.grammar.target
        if table not in self.tables:
            return None
        columns = {it.name: it for it in self.tables[table].columns}
        order = [columns.get(self.found[at].value) for at in named] if named else list(columns.values())
        pairs = [(columns.get(self.found[at].value), part) for at, part in self.grammar.sets]
        pairs += [pair for row in self.grammar.rows for pair in zip(order, row)]
        if self.grammar.is_insert_of_query:
            pairs += [pair for core in self.grammar.cores for pair in zip(order, core.items) if "*" not in [it.kind for it in core.items]]
        for column, part in pairs:
            kind, wanted = self.type_of(part), TYPES.get(column.type, "") if column is not None else ""
            if kind in SHOWN and wanted in SHOWN and kind != wanted:
                text = self.value_as(part, wanted)
                hint = f"write {text}" if text else "nothing is converted: write a value of the column's type, or NULL"
                return Finding(f"column {column.name} is {SHOWN[wanted]}, and {self.shown(part)} is {SHOWN[kind]}", hint, part.begin,
                               part.end)
        return None

    def value_as(self, part: Part, wanted: str) -> str:
        """A literal as a value of another type; nothing where it has no such form."""
        text = self.literal_as(part, wanted, "TRUE")
        return text.replace("NOT TRUE", "FALSE")

    def core_types(self) -> Optional[Finding]:
        """Cores of UNION ALL whose items in one place have two types."""
        cores = self.grammar.cores
        if len(cores) < 2 or any(it.kind == "*" for core in cores for it in core.items):
            return None
        for parts in zip(*(it.items for it in cores)):
            typed = [(it, self.type_of(it)) for it in parts if self.type_of(it) in SHOWN]
            other = next((it for it in typed if it[1] != typed[0][1]), None)
            if other:
                detail = f"{self.shown(typed[0][0])} is {SHOWN[typed[0][1]]}, and {self.shown(other[0])} is {SHOWN[other[1]]}"
                text = self.value_as(other[0], typed[0][1])
                hint = "nothing is converted: items in one place have one type; NULL goes with any"
                if text:
                    hint = f"write {text} for {self.shown(other[0])}"
                return Finding(detail, hint, other[0].begin, other[0].end)
        return None

    # 42803

    def grouping(self) -> Optional[Finding]:
        """An aggregate where none may be, or a column that is no key."""
        for use in self.grammar.aggregates:
            shown = self.shown(use.part)
            if use.is_inside:
                return Finding(f"{shown} is within another aggregate", "group first, and let the client do the rest", use.part.begin,
                               use.part.end)
            if use.clause == "where":
                return Finding(f"{shown} is in WHERE, which chooses rows before they are grouped", "conditions on groups are in HAVING",
                               use.part.begin, use.part.end)
            if use.clause in ("on", "values", "set", "group"):
                return Finding(f"an aggregate may not be in {use.clause.upper()}", "ask for it by a SELECT, and write its value",
                               use.part.begin, use.part.end)
        for number, core in enumerate(self.grammar.cores):
            use = self.loose_column(number, core)
            if use:
                shown = self.shown(use.part)
                hint = f"write GROUP BY {shown}{', ..' if core.keys else ''}, or min({shown})"
                return Finding(f"{shown} is no column of GROUP BY, and in no aggregate", hint, use.part.begin, use.part.end)
        return None

    def loose_column(self, number: int, core: Core) -> Optional[Use]:
        """The first column outside aggregates that is no key, in a core that groups."""
        clauses = ("items", "having", "order")
        if not core.has_groups and not any(it.core == number and it.clause in clauses for it in self.grammar.aggregates):
            return None
        keys = {it.column[1] for it in core.keys if it.column}
        labels = {name for name, _ in core.labels}
        for use in self.grammar.columns:
            name = use.part.column[1] if use.part.column else ""
            is_output = use.clause == "order" and name in labels
            if use.core == number and use.clause in clauses and not (use.is_inside or name in keys or is_output):
                return use
        return None

    # 42601 of a statement that the grammar has

    def numbers(self) -> Optional[Finding]:
        """`*` without FROM, a column that is set twice, and numbers of values that do not fit."""
        grammar = self.grammar
        for core in grammar.cores:
            if core.star >= 0 and not core.has_from:
                return Finding("* has no FROM", "write FROM and the name of a table", core.star, core.star + 1)
        seen: List[str] = []
        for at, _ in grammar.sets:
            if self.found[at].value in seen:
                return Finding(f"column {self.found[at].value} is set twice", "set it once", at, at + 1)
            seen.append(self.found[at].value)
        return self.widths() or self.row_widths()

    def widths(self) -> Optional[Finding]:
        """Cores with different numbers of items."""
        cores = self.grammar.cores
        if len(cores) < 2 or any(it.kind == "*" for core in cores for it in core.items):
            return None
        first = len(cores[0].items)
        for core in cores[1:]:
            if len(core.items) != first:
                return Finding(f"the first core has {first} items, and this one {len(core.items)}",
                               "as many in each, NULL where a core has nothing", core.begin,
                               core.begin + 1)
        return None

    def row_widths(self) -> Optional[Finding]:
        """Rows of VALUES that do not fit the columns."""
        table, named = self.grammar.target
        rows = self.grammar.rows
        most = len(self.tables[table].columns) if table in self.tables else 0
        for row in rows:
            place = row[0].begin, row[-1].end
            if len(row) != len(rows[0]):
                return Finding(f"the first row has {len(rows[0])} values, and this one {len(row)}",
                               "as many in each row, NULL where it has nothing", *place)
            if named and len(row) != len(named):
                return Finding(f"{len(named)} columns are named, and {len(row)} values given", "a value for each column of the list",
                               *place)
            if most and not named and len(row) > most:
                names = ", ".join(it.name for it in self.tables[table].columns)
                return Finding(f"{table} has {most} columns, and {len(row)} values are given", f"the columns are {names}", *place)
        return None

    # 0A000 and 42703

    def not_supported(self) -> Optional[Finding]:
        """Arithmetic in an ON or in the query of a cursor, and FETCH 0."""
        grammar = self.grammar
        for at in grammar.conditions_of_on:
            return Finding(f"{self.found[at].raw} is in ON", BY_KEY["arithmetic in on"].hint, at, at + 1)
        verb = self.found[0].value
        if verb == "fetch" and self.found[1].raw.strip("0") == "" and self.found[1].kind == "number":
            return Finding("FETCH 0 gives nothing", "fetch at least one row", 1, 2)
        places = [it.at for it in grammar.checks if it.what == "arithmetic" or it.what == "call" and self.found[it.at].value == "sum"]
        if verb == "declare" and places:
            at = min(places)
            hint = "ask for the columns, and let the client do the arithmetic; or send the query without a cursor"
            return Finding(f"{self.found[at].raw} is in the query of a cursor", hint, at, at + 1)
        return None

    def lacking_name(self) -> Optional[Finding]:
        """A name that is a value elsewhere, and the name of an output in GROUP BY, WHERE or HAVING."""
        for use in sorted(self.grammar.columns, key=lambda it: it.at):
            qualifier, name = use.part.column or ("", "")
            if qualifier or self.is_column(use, name):
                continue
            if name in NAMES and self.found[use.at].kind == "word":
                return Finding(f"there is no {name.upper()}", BY_KEY[NAMES[name]].hint, use.at, use.at + 1)
            if use.clause in ("group", "where", "having"):
                finding = self.of_label(use, name)
                if finding:
                    return finding
        return None

    def is_column(self, use: Use, name: str) -> bool:
        """Whether a table of the core has this column, or is not known."""
        entries = self.grammar.cores[use.core].entries if use.core < len(self.grammar.cores) else []
        return any(table not in self.tables or any(it.name == name for it in self.tables[table].columns) for _, table, _ in entries)

    def of_label(self, use: Use, name: str) -> Optional[Finding]:
        """What an output's name in GROUP BY, WHERE or HAVING means: where a function that is not here makes it, that is what is wrong."""
        part = next((it for label, it in self.grammar.cores[use.core].labels if label == name), None)
        if part is None:
            return None
        for check in self.grammar.checks:
            if check.what == "call" and part.begin <= check.at < part.end and self.found[check.at].value not in AGGREGATES:
                return self.call(check)
        shown = self.shown(part)
        where = {"group": "GROUP BY", "where": "WHERE", "having": "HAVING"}[use.clause]
        hint = f"write {shown} for {name}; only ORDER BY sees what AS names"
        if use.clause == "group" and not part.column:
            hint = "GROUP BY takes columns alone"
        return Finding(f"{name} is the name of an output, which {where} does not see", hint, use.at, use.at + 1)
