"""What \\d shows of the objects that the shell knows, a line each."""
from __future__ import annotations

from collections.abc import Iterator

from ..terminal import printable

if False:  # (for the types alone)
    from .catalogue import Catalogue, Object


def everything(catalogue: Catalogue) -> Iterator[str]:
    """Tables, servers, mappings, and sources without a server."""
    tables = catalogue.of_kind("table")
    yield from map(str, tables)
    yield f"({len(tables)} table{'s' * (len(tables) != 1)})"
    for it in catalogue.of_kind("server"):
        yield f"server {it.name}: {source_of(catalogue, it.name)}"
    for it in catalogue.of_kind("mapping"):
        yield mapping(it)
    taken = {it.options.get("source") for it in catalogue.of_kind("server")}
    for source in catalogue.sources:
        if source[1] not in taken:
            yield f"{written_source(*source)}: no server has it"


def one(catalogue: Catalogue, name: str) -> Iterator[str]:
    """The table or server of this name; nothing where there is none."""
    table, server = catalogue.get("table", name), catalogue.get("server", name)
    if table:
        yield from of_table(catalogue, table)
    elif server:
        yield f"server {name}: {source_of(catalogue, name)}"
        yield from (f"  {it}" for it in catalogue.of_kind("table") if it.of == name)
        yield from (f"  {mapping(it)}" for it in catalogue.of_kind("mapping") if it.of == name)


def of_table(catalogue: Catalogue, table: Object) -> Iterator[str]:
    """A foreign table's columns, server and options."""
    names = [printable(it.name) for it in table.columns]
    longest = max([*map(len, names), 0])
    yield f"foreign table {table.name}"
    for name, it in zip(names, table.columns):
        member = f"  member {it.options['member']}" if "member" in it.options else ""
        yield f"  {name:<{longest}}  {it.type}{' NOT NULL' * it.is_not_null}{member}"
    if table.of:
        yield f"  of server {table.of}" + (f", {source_of(catalogue, table.of)}" if catalogue.get("server", table.of) else "")
    yield from (f"  {option} '{text}'" for option, text in table.options.items())


def mapping(it: Object) -> str:
    """A user mapping in one line."""
    return f"mapping {it.name}: {it.options.get('mode', 'read')}"


def source_of(catalogue: Catalogue, server: str) -> str:
    """The source of a server."""
    return written_source(*catalogue.source_of(server))


def written_source(kind: str, name: str, path: str) -> str:
    """A source in a few words."""
    return f"source {name} ({kind}{' ' * bool(path)}{path})"
