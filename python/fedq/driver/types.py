"""The type objects and constructors of PEP 249."""
from __future__ import annotations

import datetime
from typing import Any, NoReturn

from ..errors import NotSupportedError

# Dates and times are bound as texts in their ISO form, which sort by time.
Date, Time, Timestamp = datetime.date, datetime.time, datetime.datetime


def DateFromTicks(ticks: float) -> datetime.date:
    """Returns the local date at a number of seconds since 1970."""
    return datetime.date.fromtimestamp(ticks)


def TimeFromTicks(ticks: float) -> datetime.time:
    """Returns the local time of day at a number of seconds since 1970."""
    return datetime.datetime.fromtimestamp(ticks).time()


def TimestampFromTicks(ticks: float) -> datetime.datetime:
    """Returns the local date and time at a number of seconds since 1970."""
    return datetime.datetime.fromtimestamp(ticks)


def Binary(_data: Any) -> NoReturn:
    """Fails with NotSupportedError: there is no type of bytes."""
    raise NotSupportedError("0A000 there is no type of bytes: .hex() makes a text", "0A000", "feature_not_supported")


class TypeObject:
    """What equals the type codes of a `description` that are of one sort. A type code is the name of a type, as `integer`."""

    def __init__(self, label: str, *names: str) -> None:
        self.label, self.names = label, names

    def __eq__(self, other: object) -> bool:
        return self is other or other in self.names

    def __hash__(self) -> int:
        return hash(self.names)

    def __repr__(self) -> str:
        return f"<fedq.{self.label}>"


STRING, NUMBER, BOOLEAN = TypeObject("STRING", "text"), TypeObject("NUMBER", "integer"), TypeObject("BOOLEAN", "boolean")
# (no column is of these)
BINARY, DATETIME, ROWID = TypeObject("BINARY"), TypeObject("DATETIME"), TypeObject("ROWID")
