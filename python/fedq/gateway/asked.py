"""Whether a statement queries the catalogue or the session, and not the program."""
from typing import Container, Sequence

from ..sql import Token

# Functions that a client calls without naming a table.
FUNCTIONS = frozenset("version current_database current_schema current_schemas current_user session_user current_catalog pg_backend_pid "
                      "current_setting set_config now "
                      "pg_is_in_recovery txid_current inet_server_addr inet_server_port pg_advisory_unlock_all to_regclass "
                      "pg_postmaster_start_time".split())


def is_of_catalogue(found: Sequence[Token], tables: Container[str] = ()) -> bool:
    """Whether a name of pg_catalog or information_schema, or a function of the session, is in a query. A foreign table of such a name
    goes first."""
    for it in found:
        if it.kind in ("word", "quoted") and it.value not in tables and (
                it.value.startswith("pg_") or it.value == "information_schema" or it.kind == "word" and it.value in FUNCTIONS):
            return True
    return False
