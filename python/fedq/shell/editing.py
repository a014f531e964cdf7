"""\\e: a statement, or a file, in the person's editor."""
from __future__ import annotations

import os, shutil, subprocess, tempfile

from ..terminal import path_word

if False:  # (for the types alone)
    from .interrupts import Interrupts


def editor() -> str:
    """The command that edits files; empty where there is none."""
    named = os.environ.get("FEDQ_EDITOR") or os.environ.get("VISUAL") or os.environ.get("EDITOR")
    return named or next(filter(shutil.which, ("sensible-editor", "editor", "vi", "nano")), "")


def edited(path: str, interrupts: Interrupts) -> bool:
    """Has the person edit a file; whether the editor ended well."""
    command = f"{editor()} {path_word(path)}"
    with interrupts.left_to_others():
        return subprocess.run(command, shell=True).returncode == 0


def edited_text(text: str, interrupts: Interrupts) -> str | None:
    """A text as the person has edited it; None where the editor did not end well. Fails with OSError."""
    with tempfile.TemporaryDirectory(prefix="fedq-") as folder:
        path = os.path.join(folder, "statement.sql")
        with open(path, "w", encoding="utf-8", errors="surrogateescape") as file:
            file.write(text.rstrip("\n") + "\n" if text else "")
        if not edited(path, interrupts):
            return None
        with open(path, encoding="utf-8", errors="surrogateescape") as file:
            return file.read()
