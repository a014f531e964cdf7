"""`fedq-gateway` that adds a byte to the file `quick` for each prepared query that it answers in one pass."""
import os, sys

from fedq.gateway import connection
from fedq.gateway.main import run

started = connection.started


def counted(session, body, inbox):
    """`started`, counted."""
    begun = started(session, body, inbox)
    if begun is not None:
        with open("quick", "ab") as it:
            it.write(b".")
    return begun


connection.started = counted
os.environ.setdefault("PYTHONUTF8", "1")
sys.exit(run())
