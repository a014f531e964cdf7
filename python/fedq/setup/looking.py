"""What fedq-shell says of the files of its sources: at most one line on each."""
import difflib, os
from typing import Optional

from ..notes import COPIED
from .advice import WARNING, Report

NESTED = " is an object (line "  # a member whose own members are columns of a copy
MOST_SAID = 3  # of the warnings on one file
NO_TABLE = " is no table by its name: left out"  # what is said of a page or a script, which nobody misses


def in_one_line(report: Report) -> Optional[str]:
    """What a report says, on one line: why the file is not bound, else what may surprise; and the command that makes a plain copy, where that
    makes more of it than the command that is said. None where there is nothing to say."""
    said = faults_of(report) if report.faults else warnings_of(report)
    makes_more = report.by_copy and (report.faults or NESTED in (said or "") or any(kind in COPIED for _, kind in report.notes))
    if not said or not makes_more or not report.source or " --copy " in said:
        return said
    name = report.source.partition("=")[0].rpartition(" ")[2]
    return f"{said}; plain copies: fedq-setup {report.source} --copy {name}_plain"


def faults_of(report: Report) -> str:
    """Why a file is not bound."""
    more = len(report.faults) - 1
    return report.faults[0] + (f" (and {more} more)" if more else "")


def warnings_of(report: Report) -> Optional[str]:
    """What may surprise in a file; None where that is nothing."""
    said = [it for it in report.warnings if not it.endswith(NO_TABLE)]
    if not said:
        return None
    plain = [it[len(WARNING):] if it.startswith(WARNING) else it for it in said]
    rest = [it[len(report.name):].lstrip(" :") if it.startswith(report.name) else it for it in plain[1:MOST_SAID]]
    more = len(said) - MOST_SAID
    return "; ".join([WARNING + plain[0], *rest, *([f"and {more} more"] if more > 0 else [])])


def lacking(kind: str, path: str) -> Optional[str]:
    """That a source's folder or database is not there, with the name that is nearest; None where it is."""
    if path == ":memory:" or os.path.lexists(path):
        return None
    folder, name = os.path.split(path.rstrip("/"))
    names = os.listdir(folder or ".") if os.path.isdir(folder or ".") else []
    near = difflib.get_close_matches(name, names, 1)
    hint = f"; {os.path.join(folder, near[0])} is" if near else "; :memory: is a new one" if kind == "sqlite" else ""
    return f"{path} is not there{hint}"
