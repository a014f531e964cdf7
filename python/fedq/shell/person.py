"""What a person at a terminal sees beside the answers: a sign that something runs, and a pager."""
from __future__ import annotations

import os, shutil, subprocess, sys
from collections.abc import Iterator
from contextlib import contextmanager

from ..terminal import printable

if False:  # (for the types alone)
    from .interrupts import Interrupts

SIGNS = "|/-\\"


class Spinner:
    """Shows on standard error how long is waited, from the first second on."""

    def __init__(self) -> None:
        self.is_shown, self.count = False, 0

    def tick(self, seconds: float, what: str = "") -> None:
        """Shows how many seconds were waited, and for what; that is shown at once."""
        if seconds >= 1 or what:
            self.is_shown, self.count = True, self.count + 1
            before = f"{printable(what)}, " if what else ""
            self.write(f"\r{SIGNS[self.count % len(SIGNS)]} {before}{seconds:.0f} s, Ctrl-C stops it ")

    def clear(self) -> None:
        """Takes the sign away."""
        if self.is_shown:
            self.is_shown = False
            self.write("\r\x1b[K")

    def write(self, text: str) -> None:
        """Writes text."""
        sys.stderr.write(text)
        sys.stderr.flush()


class Pager:
    """A program that shows long texts. What it no longer reads is dropped."""

    def __init__(self, command) -> None:
        self.process = subprocess.Popen(command, shell=True, stdin=subprocess.PIPE, env={"LESS": "FRSX", **os.environ})

    def write(self, text: str) -> None:
        """Writes text."""
        try:
            self.process.stdin.write(text.encode(errors="replace"))
        except OSError:
            pass

    def close(self) -> None:
        """Ends the pager, after it has shown all."""
        try:
            self.process.stdin.close()
        except OSError:
            pass
        self.process.wait()


@contextmanager
def paged(height_and_width: tuple[int, int], interrupts: Interrupts) -> Iterator[Pager | None]:
    """A Pager where a text of this size does not fit on the terminal, else None."""
    size, command = shutil.get_terminal_size(), os.environ.get("PAGER", "less" if shutil.which("less") else "")
    if not command or not sys.stdout.isatty() or height_and_width[0] < size.lines and height_and_width[1] <= size.columns:
        yield None
        return
    sys.stdout.flush()
    pager = Pager(command)
    try:
        with interrupts.left_to_others():
            yield pager
            pager.close()
    finally:
        if pager.process.poll() is None:
            pager.process.terminate()
            pager.process.wait()
