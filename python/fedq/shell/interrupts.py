"""Ctrl-C and the signals that end the shell."""
from __future__ import annotations

import signal, sys
from collections.abc import Iterator
from contextlib import contextmanager

TICK = 0.5  # seconds


class Interrupts:
    """Ctrl-C raises KeyboardInterrupt in the blocks that allow it; elsewhere it is kept for the next of them. So nothing else is left
    half done. SIGTERM and SIGHUP raise SystemExit anywhere, once: the shell then ends in order."""

    def __init__(self) -> None:
        self.is_allowed = self.is_pending = False
        # (a signal that comes just before Python waits for input would not end the waiting: the next tick does)
        signal.signal(signal.SIGALRM, lambda _number, _frame: None)
        signal.setitimer(signal.ITIMER_REAL, TICK, TICK)
        signal.signal(signal.SIGINT, self.interrupt)
        for number in (signal.SIGTERM, signal.SIGHUP):
            signal.signal(number, self.end)

    def interrupt(self, _number: int, _frame: object) -> None:
        """Takes Ctrl-C."""
        self.is_pending = not self.is_allowed
        if self.is_allowed:
            self.is_allowed = False
            raise KeyboardInterrupt

    def end(self, number: int, _frame: object) -> None:
        """Takes a signal that ends the shell."""
        self.ignore_all()
        sys.exit(128 + number)

    def ignore_all(self) -> None:
        """From here on no signal of these does anything: the shell ends. (Python forgets the handler of the tick before it is gone: none
        may come then.)"""
        signal.setitimer(signal.ITIMER_REAL, 0)
        for number in (signal.SIGINT, signal.SIGTERM, signal.SIGHUP):
            signal.signal(number, signal.SIG_IGN)

    @contextmanager
    def allowed(self) -> Iterator[None]:
        """Lets Ctrl-C interrupt what is in this block."""
        if self.is_pending:
            self.is_pending = False
            raise KeyboardInterrupt
        self.is_allowed = True
        try:
            yield
        finally:
            self.is_allowed = False

    @contextmanager
    def left_to_others(self) -> Iterator[None]:
        """Leaves Ctrl-C to another program on the terminal."""
        signal.signal(signal.SIGINT, signal.SIG_IGN)
        try:
            yield
        finally:
            signal.signal(signal.SIGINT, self.interrupt)
