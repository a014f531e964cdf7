"""What \\dt, \\df and \\l show, as names and rows of a table."""
from __future__ import annotations

from ..names import quoted_name
from .description import source_of

if False:  # (for the types alone)
    from .catalogue import Catalogue

Listed = "tuple[list[str], list[list[str]]]"
# docs/LANGUAGE.md has them with their rules.
FUNCTIONS = [
    ("count(*)", "integer", "how many rows there are"),
    ("count(x)", "integer", "how many rows have a value that is not NULL"),
    ("sum(integer)", "integer", "the sum; NULL where there is no value"),
    ("min(x)", "as x", "the least value; of texts by their bytes"),
    ("max(x)", "as x", "the greatest value; of texts by their bytes"),
]


def tables(catalogue: Catalogue) -> Listed:
    """The foreign tables, with their servers and what they read."""
    rows = []
    for it in catalogue.of_kind("table"):
        remote = it.options.get("filename", it.options.get("table", ""))
        source = source_of(catalogue, it.of) if catalogue.get("server", it.of) else ""
        rows.append([quoted_name(it.name), str(len(it.columns)), it.of, source, remote])
    return ["Table", "Columns", "Server", "Source", "File or table"], rows


def functions() -> Listed:
    """The functions of the language, which are aggregates all."""
    return ["Function", "Gives", "Of a group"], [list(it) for it in FUNCTIONS]


def sources(catalogue: Catalogue) -> Listed:
    """The sources, with their servers and what the mapping for everybody lets do."""
    servers = {it.options.get("source"): it.name for it in catalogue.of_kind("server")}
    rows = []
    for kind, name, path in catalogue.sources:
        server = servers.get(name, "")
        mapping = catalogue.get("mapping", f"public on {server}")
        rows.append([name, kind, path, server, mapping.options.get("mode", "read") if mapping else ""])
    return ["Source", "Kind", "Path", "Server", "Everybody may"], rows
