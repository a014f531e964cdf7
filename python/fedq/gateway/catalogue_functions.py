"""The functions of the catalogue's database: PostgreSQL's, as far as clients need them, and the only ones of SQLite that a question may
call."""
import json, re, sqlite3
from typing import Any, Callable, FrozenSet, List, Optional

from .catalogue_rows import FIRST, OWNER, TYPES, VERSION

MOST_TEXT, MOST_STEPS = 1 << 20, 2_000_000
NUMBERS = {"pg_class": 1259, "pg_type": 1247, "pg_namespace": 2615, "pg_database": 1262, "pg_proc": 1255, "pg_constraint": 2606,
           "pg_attribute": 1249,
           "pg_foreign_server": 1417, "pg_foreign_data_wrapper": 2328, "pg_trigger": 2620, "pg_extension": 3079, "pg_authid": 1260,
           "pg_rewrite": 2618}
VISIBLE = "pg_table_is_visible pg_type_is_visible pg_function_is_visible pg_opclass_is_visible"
ZERO = ("pg_is_in_recovery pg_relation_is_publishable pg_is_other_temp_schema inherited pg_total_relation_size pg_relation_size "
        "pg_table_size pg_database_size "
        "txid_current")
ONE = ("has_table_privilege has_schema_privilege has_database_privilege has_column_privilege has_any_column_privilege pg_has_role "
       "has_function_privilege")
NOTHING = ("pg_get_expr pg_get_viewdef pg_get_indexdef pg_get_constraintdef pg_get_triggerdef pg_get_serial_sequence obj_description "
           "col_description shobj_description "
           "pg_get_partkeydef generate_subscripts pg_get_function_arguments pg_get_function_identity_arguments "
           "pg_get_statisticsobjdef_columns pg_get_function_result "
           "pg_get_ruledef inet_server_addr inet_server_port pg_stat_get_numscans pg_my_temp_schema pg_tablespace_location "
           "pg_advisory_unlock_all pg_get_keywords")
OF_SQLITE = ("count min max sum total avg coalesce nullif ifnull iif lower upper length substr trim ltrim rtrim instr abs round "
             "group_concat json_array json_object "
             "json_group_array json_each json_array_length row_number rank dense_rank")
OWN = ("version current_database current_schema current_user current_schemas pg_backend_pid current_setting set_config pg_get_userbyid "
       "format_type regclass to_regclass "
       "regclass_text regtype regexp like replace pg_encoding_to_char array_to_string array_length array_upper quote_ident "
       "pg_size_pretty concat position2 now "
       "pg_postmaster_start_time")
SAFE: FrozenSet[str] = frozenset(" ".join((VISIBLE, ZERO, ONE, NOTHING, OF_SQLITE, OWN)).split())


class TooMuch(Exception):
    """A function would work too long or make too much."""


def make_functions(db: sqlite3.Connection, catalogue: Any) -> None:
    """Makes all of them. `catalogue.asker` is the session of the query, `catalogue.tables` the tables by name."""

    def make(names: str, count: int, function: Callable) -> None:
        for name in names.split():
            db.create_function(name, count, function)

    make_of_session(make, catalogue)
    make_of_names(make, catalogue)
    make(VISIBLE, 1, lambda _: 1)
    make(ZERO, -1, lambda *_: 0)
    make(ONE, -1, lambda *_: 1)
    make(NOTHING, -1, lambda *_: None)
    make("regexp", 2, matches)
    make("like", 2, is_like)
    make("like", 3, lambda pattern, text, escape: is_like(pattern, text, escape))
    make("replace", 3, replaced)
    make("concat", -1, lambda *parts: bounded("".join(str(it) for it in parts if it is not None)))
    make("position2", 2, lambda part, text: None if part is None or text is None else str(text).find(str(part)) + 1)
    make("array_to_string", -1, lambda array, mark, *_: None if array is None else array_text(array, mark))
    make("array_length array_upper", 2, lambda array, _: None if array is None else len(json.loads(array)) or None)
    make("quote_ident", 1, lambda name: name)
    make("pg_size_pretty", 1, lambda size: f"{size} bytes")
    make("pg_encoding_to_char", 1, lambda _: "UTF8")


def make_of_session(make: Callable, catalogue: Any) -> None:
    make("version", 0, lambda: f"PostgreSQL {VERSION}")
    make("current_database", 0, lambda: catalogue.asker.database)
    make("current_schema", 0, lambda: "public")
    make("current_user", 0, lambda: catalogue.asker.user)
    make("current_schemas", 1, lambda _: json.dumps(["pg_catalog", "public"]))
    make("pg_backend_pid", 0, lambda: catalogue.asker.pid)
    make("current_setting", -1, lambda name, *_: catalogue.asker.settings.get(str(name).lower()))
    make("set_config", 3, lambda _name, value, _local: value)
    make("now pg_postmaster_start_time", 0, lambda: "2000-01-01 00:00:00+00")


def make_of_names(make: Callable, catalogue: Any) -> None:
    def number(name: Any) -> Optional[int]:
        found = catalogue.tables.get(last_name(str(name)))
        return FIRST + found.number if found else None

    def name_of(oid: Any) -> Optional[str]:
        return next((it.name for it in catalogue.tables.values() if FIRST + it.number == oid), None)

    def regclass(name: Any) -> Optional[int]:
        return int(name) if str(name).isdigit() else number(name) or NUMBERS.get(last_name(str(name)))

    make("pg_get_userbyid", 1, lambda oid: catalogue.owner if oid == OWNER else catalogue.asker.user)
    make("format_type", 2, lambda oid, _: TYPES[oid][1] if oid in TYPES else None if oid is None else "???")
    make("regclass", 1, regclass)
    make("to_regclass", 1, number)
    make("regclass_text", 1, lambda oid: name_of(oid) or ("-" if oid in (0, None) else str(oid)))
    make("regtype", 1, lambda name: next((oid for oid, it in TYPES.items() if name in it[:2]), None))


def last_name(text: str) -> str:
    """The last part of a name with dots, as it is where it is quoted, else in small letters."""
    parts: List[str] = re.findall(r'"(?:[^"]|"")*"|[^."]+', text[:1000])
    last = parts[-1] if parts else ""
    return last[1:-1].replace('""', '"') if last.startswith('"') else last.lower()


def array_text(array: str, mark: str) -> str:
    return bounded(mark.join(map(str, json.loads(array))) if array.startswith("[") else array.strip("{}").replace(",", mark))


def bounded(text: str) -> str:
    if len(text) > MOST_TEXT:
        raise TooMuch()
    return text


def replaced(text: Any, part: Any, other: Any) -> Optional[str]:
    if text is None or part is None or other is None:
        return None
    text, part, other = str(text), str(part), str(other)
    if len(text) + (text.count(part) if part else 0) * len(other) > MOST_TEXT:
        raise TooMuch()
    return text.replace(part, other) if part else text


def matches(pattern: Any, text: Any) -> Optional[bool]:
    """Whether a regular expression is found in a text. One that might work very long is refused: with a repeated group, or too many
    repetitions for the text."""
    if pattern is None or text is None:
        return None
    pattern, text = str(pattern), str(text)
    repeats = len(re.findall(r"[*+{]", re.sub(r"\\.", "", pattern)))
    if len(pattern) > 1000 or re.search(r"\)[*+?{]|\\[0-9]|\(\?", pattern) or (len(text) + 1)**max(repeats, 1) > MOST_STEPS:
        raise TooMuch()
    try:
        return bool(re.search(pattern, text))
    except (re.error, RecursionError):
        raise TooMuch()


def is_like(pattern: Any, text: Any, escape: str = "\\") -> Optional[bool]:
    """LIKE, with case. It goes back to the last % alone, so its steps are bounded by both lengths' product."""
    if pattern is None or text is None:
        return None
    marks, text = like_marks(str(pattern), escape), str(text)
    if (len(marks) + 1) * (len(text) + 1) > MOST_STEPS:
        raise TooMuch()
    at, place, star, kept = 0, 0, -1, 0
    while place < len(text):
        if at < len(marks) and marks[at] is None:
            star, kept, at = at, place, at + 1
        elif at < len(marks) and (marks[at] == "" or marks[at] == text[place]):
            at, place = at + 1, place + 1
        elif star >= 0:
            kept += 1
            at, place = star + 1, kept
        else:
            return False
    return all(it is None for it in marks[at:])


def like_marks(pattern: str, escape: str) -> List[Optional[str]]:
    """The characters of a pattern: None for %, an empty text for _."""
    marks: List[Optional[str]] = []
    letters = iter(pattern)
    for it in letters:
        if it == escape:
            marks.append(next(letters, escape))
        else:
            marks.append(None if it == "%" else "" if it == "_" else it)
    return marks
