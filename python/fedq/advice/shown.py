"""Advice as lines of a terminal."""
from __future__ import annotations

from typing import Callable, List

from ..terminal import printable
from .advising import Advice

BEFORE, AFTER = 40, 36  # characters of a statement that are shown before and after the place


def shown(found: Advice, text: str, width_of: Callable[[str], int] = len) -> List[str]:
    """The part of the statement that advice is about, a caret under it, and what the advice says. `width_of` returns the columns of a
    text."""
    line_begin = text.rfind("\n", 0, found.begin) + 1
    line_end = text.find("\n", found.begin)
    line_end = len(text) if line_end < 0 else line_end
    begin = max(line_begin, found.begin - BEFORE) if line_end - line_begin > BEFORE + AFTER else line_begin
    end = min(line_end, max(found.begin + AFTER, begin + BEFORE + AFTER))
    before = (".." if begin > line_begin else "") + printable(text[begin:found.begin])
    after = printable(text[found.begin:end]) + (".." if end < line_end else "")
    lines = [before + after, " " * width_of(before) + "^", found.detail]
    return [*lines, f"instead: {found.hint}"] if found.hint else lines
