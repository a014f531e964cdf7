"""What `connect` does: it starts a program over the sources that it is given, or joins an engine that others started."""
from __future__ import annotations

import os
import warnings
from typing import Dict, List, Optional, Sequence, Union

from ..engine import Port, Program
from ..errors import InterfaceError, ProgrammingError, Warning
from ..terminal import printable
from .connection import Connection, opened
from .parameters import STYLES

Path = Union[str, "os.PathLike[str]"]
Sources = Optional[Dict[str, Path]]
OWNER = "admin"


def connect(csv: Sources = None, jsonl: Sources = None, sqlite: Sources = None, lists: Union[str, Sequence[str]] = (), *,
            init: Union[Path, Sequence[str], None] = None, write: bool = False, user: Optional[str] = None, owner: Optional[str] = None,
            program: Optional[Path] = None, port: Optional[int] = None, host: str = "127.0.0.1", timeout: Optional[float] = None,
            paramstyle: str = "qmark") -> Connection:
    """Starts `fedq` over folders and databases, each with a name; or, with `port`, joins `fedq serve` or a gateway's port for lines.

    - `csv`, `jsonl`: folders of CSV files and of JSON lines; `sqlite`: databases; `lists`: names of demo lists.
    - `init`: a file of statements, or a list of statements, that make the objects. Without it the folders are looked at as `fedq-setup`
      does: a table for each file, to read, or with `write` to write too. What cannot be bound is a `fedq.Warning`.
    - `user`: the session's user, by default the owner; `owner`: who may CREATE and DROP, by default admin.
    - `program`: the program. Else it is what FEDQ_PROGRAM names, the one of this package, of its clone or of `make install`,
      or `fedq` on the PATH.
    - `timeout`: the seconds to wait for the port's first answer; no limit by default.
    - `paramstyle`: qmark (`?`, and `:name` for a mapping) or pyformat (`%s`, and `%(name)s` for a mapping).

    Fails with InterfaceError for wrong arguments and a missing program, and with DatabaseError where the engine refuses."""
    if paramstyle not in STYLES:
        raise InterfaceError(f"paramstyle is {' or '.join(STYLES)}, and not {paramstyle}")
    sources = {"csv": csv or {}, "jsonl": jsonl or {}, "sqlite": sqlite or {}}
    for kind, named in sources.items():
        if isinstance(named, (str, os.PathLike)):
            raise InterfaceError(f"{kind}= takes a name for each source: {kind}={{'t': {os.fspath(named)!r}}}")
    lists = [lists] if isinstance(lists, str) else [*lists]
    if port is not None:
        if any(sources.values()) or lists or init is not None or owner or program or write:
            raise InterfaceError("port= takes no sources, init, write, owner and program: the engine there has its own")
        return opened(Connection(Port(port, host, timeout), user or OWNER, paramstyle, is_shared=True), user or OWNER)
    words, statements = words_of(sources), []
    if isinstance(init, (str, os.PathLike)):
        words += ["--init", os.fspath(init)]
    elif init is not None:
        statements = [it.strip() for it in init if it.strip()]
    elif words:
        statements = looked_at(sources, write)
    words += [it for name in lists for it in ("--list", name)] + (["--owner", owner] if owner else [])
    connection = Connection(Program(words, program and os.fspath(program)), user or owner or OWNER, paramstyle)
    return opened(connection, connection.user, owner or OWNER, statements)


def words_of(sources: Dict[str, Dict[str, Path]]) -> List[str]:
    """The program's arguments for sources."""
    return [it for kind, named in sources.items() for name, path in named.items() for it in (f"--{kind}", f"{name}={os.fspath(path)}")]


def looked_at(sources: Dict[str, Dict[str, Path]], write: bool) -> List[str]:
    """The statements that `fedq-setup` writes for sources. What it says of the files becomes warnings. Fails with InterfaceError where a
    folder is not there, and with ProgrammingError where a source cannot be called so, or cannot be read."""
    for kind in ("csv", "jsonl"):
        for name, path in sources[kind].items():
            if os.path.isfile(path):
                raise InterfaceError(f"{os.fspath(path)} of {kind}={{'{name}': ..}} is a file: give the folder that it is in")
            if not os.path.isdir(path):
                raise InterfaceError(f"the folder {os.fspath(path)} of {kind}={{'{name}': ..}} is not there")
    from ..setup.advice import NOTICE, WARNING
    from ..setup.set_up import set_up, sources_of
    try:
        named = sources_of({kind: [f"{name}={os.fspath(path)}" for name, path in its.items()] for kind, its in sources.items()})
        made = set_up(named, write)
    except ValueError as fault:
        raise ProgrammingError(str(fault)) from None
    except OSError as fault:
        raise ProgrammingError(f"{fault.filename}: {fault.strerror}") from None
    for it in made.warnings:
        if not it.startswith(NOTICE):
            said = it[len(WARNING):] if it.startswith(WARNING) else it  # (Python's `warnings` says itself that it is one)
            warnings.warn(printable(said), Warning, stacklevel=4)
    return made.script
