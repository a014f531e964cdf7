"""PEP 249 over the lines of docs/PROTOCOL.md."""
from .connecting import connect
from .connection import Connection
from .cursor import Cursor
from .types import (BINARY, BOOLEAN, DATETIME, NUMBER, ROWID, STRING, Binary, Date, DateFromTicks, Time, TimeFromTicks, Timestamp,
                    TimestampFromTicks)

__all__ = [
    "BINARY", "BOOLEAN", "Binary", "Connection", "Cursor", "DATETIME", "Date", "DateFromTicks", "NUMBER", "ROWID", "STRING", "Time",
    "TimeFromTicks", "Timestamp", "TimestampFromTicks", "connect",
]
