"""The commands that an installed package has: `fedq`, `fedq-shell`, `fedq-setup` and `fedq-gateway`."""
from __future__ import annotations

import locale
import os
import runpy
import sys
from typing import NoReturn

from .engine import own_program


def program() -> NoReturn:
    """Becomes the program in this package."""
    path = own_program()
    if not path:
        sys.exit("fedq: the program is not in this package: install the wheel that has it")
    os.execv(path, ["fedq", *sys.argv[1:]])


def room(name: str, *words: str) -> NoReturn:
    """Runs a module of this package as a command, with these arguments before those of the command line, over the program in this package where
    FEDQ_PROGRAM names no other. Texts are UTF-8, whatever the locale says."""
    if locale.getpreferredencoding(False).upper().replace("-", "") != "UTF8" and not sys.flags.utf8_mode:
        os.execv(sys.executable, [sys.executable, "-X", "utf8", *sys.argv])
    path = own_program()
    if path:
        os.environ.setdefault("FEDQ_PROGRAM", path)
    sys.argv[1:1] = words
    runpy.run_module(f"fedq.{name}", run_name="__main__", alter_sys=True)
    sys.exit(0)


def shell() -> NoReturn:
    """`fedq-shell`, which looks for `fedq-setup` beside it."""
    room("shell", os.path.dirname(os.path.abspath(sys.argv[0])))


def setup() -> NoReturn:
    """`fedq-setup`."""
    room("setup")


def gateway() -> NoReturn:
    """`fedq-gateway`."""
    room("gateway")
