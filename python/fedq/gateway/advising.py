"""Advice on the statements of clients: the place in the client's own text, with its schemas, comments and parameters."""
from typing import List, Optional, Sequence, Tuple

from ..advice import Advice
from ..advice.advising import CODES, advice_on
from ..sql import MOST_KEPT_CHARACTERS, Placed, placed
from .objects import Objects
from .statements import Statement, bare, own_forms


def advised(statement: Statement, code: str, database: str, objects: Objects, command: Sequence[str]) -> Optional[Advice]:
    """What helps with a statement that was refused by this code; None where nothing is seen, or its text is long or was not kept.
    `command` has the arguments with which the program was started."""
    if code not in CODES or statement.source is None or len(statement.source[0]) > MOST_KEPT_CHARACTERS:
        return None
    text, number = statement.source
    parts = parted(placed(text))
    found = own_forms(bare(parts[number], database)) if number < len(parts) else []
    return advice_on(code, found, found[-1].end, objects.tables, lambda name: folder_of(name, objects, command)) if found else None


def parted(found: Sequence[Placed]) -> List[List[Placed]]:
    """The statements of a text, as the gateway cuts it: without comments, a text in the form E'..' as a text."""
    parts: List[List[Placed]] = [[]]
    for it in found:
        if it.raw == ";":
            parts.append([])
        elif it.kind != "comment":
            parts[-1].append(it._replace(kind="text") if it.kind == "escaped" else it)
    return [it for it in parts if it]


def folder_of(table: str, objects: Objects, command: Sequence[str]) -> Tuple[str, str]:
    """The kind and the path of the source of a table."""
    kind, name = objects.source_of(table)
    paths = (word[len(name) + 1:] for option, word in zip(command, command[1:]) if option == f"--{kind}" and word.startswith(f"{name}="))
    return kind, next(paths, "")
