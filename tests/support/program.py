"""`fedq run` over the sources of a folder: the statements that make their tables, the requests, and the replies."""
import os, subprocess
from typing import Dict, Iterable, Iterator, List, Mapping, NamedTuple, Optional, Sequence, Tuple

SECONDS = 300  # in which a run has to end, on a busy machine too
WRITE, READ = " OPTIONS (mode 'write')", ""


class Source(NamedTuple):
    """A server over the source of the same name, with its tables: of each the columns and the options. `mode` is WRITE or READ, what the mapping for
    everybody lets do; without a mapping it is None."""
    server: str
    kind: str
    tables: Mapping[str, Tuple[str, str]] = {}
    mode: Optional[str] = WRITE


def script(*sources: Source) -> List[str]:
    """The statements that make wrappers, servers, mappings and tables over these sources. A wrapper is called as its kind."""
    made: Dict[str, str] = {it.kind: f"CREATE FOREIGN DATA WRAPPER {it.kind} HANDLER {it.kind}" for it in sources}
    lines = [*made.values()]
    for it in sources:
        lines.append(f"CREATE SERVER {it.server} FOREIGN DATA WRAPPER {it.kind} OPTIONS (source '{it.server}')")
        lines += [f"CREATE USER MAPPING FOR PUBLIC SERVER {it.server}{it.mode}"] if it.mode is not None else []
        lines += [f"CREATE FOREIGN TABLE {name} ({columns}) SERVER {it.server} OPTIONS ({options})" for name, (columns, options) in it.tables.items()]
    return lines


def script_file(folder: "os.PathLike[str]", *sources: Source, name: str = "script") -> None:
    """Writes that script to a file of the folder, for --init."""
    with open(os.path.join(folder, name), "w", encoding="utf-8") as file:
        file.writelines(f"{it}\n" for it in script(*sources))


def command(program: "str | os.PathLike[str]", words: Iterable[str]) -> List[str]:
    """The words that start the program over sources."""
    return [os.path.abspath(program), "run", *words]


def ran(program: "str | os.PathLike[str]", words: Iterable[str], texts: Iterable[str], folder: "Optional[os.PathLike[str]]" = None, who: str = "admin",
        **more: object) -> "subprocess.CompletedProcess[bytes]":
    """A whole run: one session of the user `who` sends these texts, one after the other. `more` is for `subprocess.run`."""
    lines = "".join(f"1 {it}\n" for it in [f"OPEN {who}", *(f"Q {it}" for it in texts)])
    return subprocess.run(command(program, words), input=lines.encode(), capture_output=True, cwd=folder, **{"timeout": SECONDS, **more})


def asked(program: "str | os.PathLike[str]", words: Iterable[str], texts: Iterable[str], folder: "Optional[os.PathLike[str]]" = None, who: str = "admin",
          **more: object) -> List[str]:
    """The lines that a whole run answers, the first of them to OPEN. `more` is as of `ran`."""
    return ran(program, words, texts, folder, who, **more).stdout.decode().split("\n")[:-1]


def replies(lines: Iterable[str]) -> Iterator[List[str]]:
    """The lines of each reply, of whole replies one after the other."""
    found: List[str] = []
    for line in lines:
        found.append(line)
        if is_last(line):
            yield found
            found = []


def is_last(line: str) -> bool:
    """Whether a line is the last of its reply."""
    return line.partition(" ")[2][:2] in ("T ", "E ")


def unescaped(field: str) -> Optional[str]:
    """The value of a field of an H or R line, as docs/PROTOCOL.md has it; None is NULL."""
    if field == "\\N":
        return None
    parts, rest = [], iter(field)
    for it in rest:
        parts.append(it if it != "\\" else {"t": "\t", "n": "\n", "r": "\r", "\\": "\\"}[next(rest)])
    return "".join(parts)


class Running:
    """The program, with one request line at a time. `said` is what it said on standard error, once it has ended by itself."""

    def __init__(self, program: "str | os.PathLike[str]", words: Sequence[str], folder: "Optional[os.PathLike[str]]" = None) -> None:
        self.process = subprocess.Popen(command(program, words), cwd=folder, stdin=subprocess.PIPE, stdout=subprocess.PIPE, stderr=subprocess.PIPE)
        self.said: Optional[str] = None

    def ask(self, line: str) -> List[str]:
        """The lines of the reply to a request line; those that came before the program ended, where it does."""
        self.process.stdin.write(f"{line}\n".encode())
        self.process.stdin.flush()
        found: List[str] = []
        while not found or not is_last(found[-1]):
            line = self.process.stdout.readline().decode()
            if not line:
                self.said = self.process.stderr.read().decode().strip()
                break
            found.append(line.rstrip("\n"))
        return found

    def end(self) -> int:
        """Ends the input, waits for the program to end, and gives its status."""
        self.process.stdin.close()
        self.process.stdout.read()
        status = self.process.wait()
        self.process.stdout.close()
        self.process.stderr.close()
        return status
