"""fedq: SQL over CSV files, files of JSON lines and SQLite databases, by PEP 249.

Nothing of this package is proved. It starts the proved program, or speaks to one, and what that answers is proved."""
from .driver import (BINARY, BOOLEAN, DATETIME, NUMBER, ROWID, STRING, Binary, Connection, Cursor, Date, DateFromTicks, Time, TimeFromTicks,
                     Timestamp, TimestampFromTicks, connect)
from .errors import (DatabaseError, DataError, Error, IntegrityError, InterfaceError, InternalError, NotSupportedError, OperationalError,
                     ProgrammingError, Warning)

apilevel, threadsafety, paramstyle = "2.0", 2, "qmark"
__version__ = "0.1.0"

__all__ = [
    "BINARY", "BOOLEAN", "Binary", "Connection", "Cursor", "DATETIME", "DataError", "DatabaseError", "Date", "DateFromTicks", "Error",
    "IntegrityError", "InterfaceError", "InternalError", "NUMBER", "NotSupportedError", "OperationalError", "ProgrammingError", "ROWID",
           "STRING",
    "Time", "TimeFromTicks", "Timestamp", "TimestampFromTicks", "Warning", "apilevel", "connect", "paramstyle", "threadsafety",
]
