"""SET, SHOW and RESET: the settings of a session. Few of them do something; what would change an answer, and cannot be had, is refused."""
from typing import Dict, List, Optional, Sequence, Tuple

from ..sql import Token
from .catalogue_rows import VERSION
from .messages import Refused

DEFAULTS: Dict[str, str] = {
    "server_version": VERSION, "server_version_num": "150000", "standard_conforming_strings": "on", "client_encoding": "UTF8",
    "server_encoding": "UTF8",
    "transaction_isolation": "read committed", "default_transaction_isolation": "read committed", "transaction_read_only": "off",
    "default_transaction_read_only": "off", "datestyle": "ISO, MDY", "timezone": "UTC", "integer_datetimes": "on",
    "intervalstyle": "postgres",
    "search_path": "public", "max_identifier_length": "63", "lc_collate": "C", "lc_ctype": "C", "max_index_keys": "32",
    "statement_timeout": "0", "application_name": "",
    "extra_float_digits": "1", "bytea_output": "hex", "client_min_messages": "notice", "is_superuser": "off", "in_hot_standby": "off",
    "default_transaction_deferrable": "off", "transaction_deferrable": "off", "row_security": "on", "fedq.writes": "refuse"}
# What a client hears of at the start, in PostgreSQL's spelling.
REPORTED = ("server_version", "server_encoding", "client_encoding", "DateStyle", "TimeZone", "integer_datetimes",
            "standard_conforming_strings", "IntervalStyle",
            "application_name", "is_superuser", "default_transaction_read_only", "in_hot_standby")
SPELLED = {it.lower(): it for it in REPORTED}
FIXED = ("server_version", "server_version_num", "server_encoding", "integer_datetimes", "max_identifier_length", "lc_collate",
         "lc_ctype", "max_index_keys", "is_superuser",
         "in_hot_standby")
TRUTHS = {**dict.fromkeys(("on", "true", "yes", "1"), "on"), **dict.fromkeys(("off", "false", "no", "0"), "off")}
SWITCHES = ("standard_conforming_strings", "default_transaction_read_only", "transaction_read_only")
SYNONYMS = {"time.zone": "timezone", "transaction.isolation.level": "transaction_isolation", "names": "client_encoding",
            "session.authorization": "session_authorization"}


class Settings:
    """What a session has set, over the defaults."""

    def __init__(self, user: str, given: Dict[str, str]) -> None:
        self.first = {**DEFAULTS, "session_authorization": user}
        self.now: Dict[str, str] = {}
        for name, value in given.items():
            self.first[name] = judged(name, value)

    def all(self) -> Dict[str, str]:
        return {**self.first, **self.now}

    def get(self, name: str) -> Optional[str]:
        return self.now.get(name, self.first.get(name))

    def set(self, name: str, value: Optional[str]) -> Optional[Tuple[str, str]]:
        """Sets one, or with None takes it back. Returns name and value where the client is to hear of it."""
        if value is None:
            self.now.pop(name, None)
        else:
            if name in FIXED or name == "session_authorization" and value != self.first[name]:
                raise Refused("55P02", f'parameter "{name}" cannot be changed')
            self.now[name] = judged(name, value)
        return (SPELLED[name], self.get(name) or "") if name in SPELLED else None

    def reset(self) -> List[Tuple[str, str]]:
        """Takes all back. Returns names and values that the client is to hear of."""
        changed = [it for it in self.now if it in SPELLED]
        self.now.clear()
        return [(SPELLED[it], self.get(it) or "") for it in changed]

    def show(self, name: str) -> str:
        value = self.get(name)
        if value is None:
            raise Refused("42704", f'unrecognized configuration parameter "{name}"', "SHOW ALL lists those that there are")
        return value


def judged(name: str, value: str) -> str:
    """The value as it is kept. Fails with Refused where an answer would have to be another one."""
    if name == "client_encoding" and value.replace("-", "").replace("_", "").lower() not in ("utf8", "unicode", "auto"):
        raise Refused("22023", f'invalid value for parameter "client_encoding": "{value}"', "UTF8 is the only encoding: SET "
                      "client_encoding TO 'UTF8'")
    if name in SWITCHES:
        if value.lower() not in TRUTHS:
            raise Refused("22023", f'parameter "{name}" is on or off')
        value = TRUTHS[value.lower()]
    if name == "standard_conforming_strings" and value == "off":
        raise Refused("22023", "standard_conforming_strings is always on", "write a backslash in '..' as it is")
    if name.endswith("transaction_isolation"):
        is_weak = value.lower() in ("read committed", "read uncommitted")
        if not is_weak:
            raise Refused("0A000", f'there is no isolation level "{value}"', "READ COMMITTED is the only one: each statement reads the "
                          "tables as they are")
        return value.lower()
    if name == "fedq.writes" and value not in ("each", "refuse"):
        raise Refused("22023", "fedq.writes is 'refuse' (writes in a transaction are refused) or 'each' (each is done at once, and stays)")
    if name == "statement_timeout":
        return milliseconds(value)
    return "UTF8" if name == "client_encoding" else value


def milliseconds(value: str) -> str:
    """A time limit, kept in milliseconds."""
    for unit, factor in (("ms", 1), ("min", 60_000), ("s", 1000), ("h", 3_600_000), ("", 1)):
        digits = value[:len(value) - len(unit)].strip()
        if value.endswith(unit) and digits.isdigit() and len(digits) < 10:
            return str(int(digits) * factor)
    raise Refused("22023", f'invalid value for parameter "statement_timeout": "{value}"', "write milliseconds, or '5s', '1min'")


def name_and_value(found: Sequence[Token]) -> Tuple[str, Optional[str]]:
    """What SET sets: its name, and its value, None for DEFAULT. Fails with Refused."""
    at = 2 if len(found) > 2 and found[1].value in ("session", "local") and found[2].value not in ("=", "to") else 1
    words = [it.value for it in found[at:]]
    if words[:2] == ["time", "zone"]:
        return "timezone", value_of(words[2:])
    if words[:1] == ["names"]:
        return "client_encoding", value_of(words[1:])
    end = next((place for place, it in enumerate(words) if it in ("=", "to")), None)
    if not end or end + 1 >= len(words):
        raise Refused("42601", "SET expects a name, = or TO, and a value", "SET application_name TO 'report'")
    return "".join(words[:end]).lower(), value_of(words[end + 1:])


def value_of(words: Sequence[str]) -> Optional[str]:
    return None if list(words) in (["default"], ["local"]) else "".join(words).replace(",", ", ")


def shown_name(found: Sequence[Token]) -> str:
    """What SHOW shows."""
    name = ".".join(it.value for it in found[1:] if it.raw != ".").lower()
    return SYNONYMS.get(name, name)
