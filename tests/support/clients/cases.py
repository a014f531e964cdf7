"""Prints a line for each case that a client's script tries: `ok NAME`, or `bad NAME: wanted .., found ..`."""
from typing import Any, Callable


def case(name: str, found: Callable[[], Any], wanted: Any) -> None:
    """Tries one case: what `found` returns, or the SQLSTATE of the error that it raises, beside what is wanted."""
    try:
        made = found()
    except Exception as fault:
        code = getattr(fault, "pgcode", None) or getattr(fault, "sqlstate", None) or getattr(getattr(fault, "orig", None), "pgcode", None)
        made = f"{type(fault).__name__} {code}" if code else f"{type(fault).__name__}: {str(fault).strip()[:200]}"
    text = f"ok {name}" if made == wanted else f"bad {name}: wanted {wanted!r}, found {made!r}"
    print(text.replace("\n", " "), flush=True)
