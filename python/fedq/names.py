"""Names as they are written in SQL."""
import re

from .sql import RESERVED


def quoted_name(name: str) -> str:
    """A name as it is written in a statement: in double quotes where it must be."""
    return name if re.fullmatch(r"[a-z_][a-z0-9_$]*", name) and name not in RESERVED else '"' + name.replace('"', '""') + '"'
