"""Gateways that tests start, each over sources in a folder of its own: the list `demo`, CSV files, JSON lines and a SQLite database."""
import json, os, pathlib, shlex, signal, socket, sqlite3, subprocess, sys, tempfile, time
from typing import Any, Dict, List, Optional

from support.wire import Client, verifier

TOP = pathlib.Path(__file__).resolve().parent.parent.parent
# (a row of sales has a LF, a TAB, a backslash and the text \N, which COPY has to escape)
PEOPLE = 'id,name,city\n1,Ada,Rome\n2,"Bo, Jr.",Oslo\n3,"",\\N\n'
SALES = [
    {"who": 1, "amount": 4, "tags": "x"},
    {"who": 1, "amount": 6},
    {"who": 2, "amount": 5, "tags": "a\nb\tc\\d"},
    {"who": 9, "amount": -7, "tags": "\\N"},
]
STAFF = [(1, "Ada L.", 1), (2, "Bo", 0), (4, None, None)]
INIT = """CREATE FOREIGN DATA WRAPPER csv HANDLER csv
CREATE SERVER files FOREIGN DATA WRAPPER csv OPTIONS (source 'files')
CREATE USER MAPPING FOR PUBLIC SERVER files
CREATE FOREIGN TABLE people (id integer, name text, city text) SERVER files OPTIONS (filename 'people.csv', header 'true')
CREATE FOREIGN TABLE mid (id integer, grp integer, name text, flag boolean) SERVER files OPTIONS (filename 'mid.csv', header 'true')
CREATE FOREIGN TABLE big (id integer, grp integer, name text, flag boolean) SERVER files OPTIONS (filename 'big.csv', header 'true')
CREATE FOREIGN DATA WRAPPER jsonl HANDLER jsonl
CREATE SERVER docs FOREIGN DATA WRAPPER jsonl OPTIONS (source 'docs')
CREATE USER MAPPING FOR PUBLIC SERVER docs OPTIONS (mode 'write')
CREATE FOREIGN TABLE sales (who integer, amount integer, tags text) SERVER docs OPTIONS (filename 'sales.jsonl')
CREATE FOREIGN DATA WRAPPER sqlite HANDLER sqlite
CREATE SERVER base FOREIGN DATA WRAPPER sqlite OPTIONS (source 'base')
CREATE USER MAPPING FOR PUBLIC SERVER base OPTIONS (mode 'write')
CREATE FOREIGN TABLE staff (id integer NOT NULL, name text, active boolean) SERVER base OPTIONS (table 'people')
"""
WORDS = "--list demo --csv files=files --jsonl docs=docs --sqlite base=base.db --init init.sql".split()


def free_port() -> int:
    """A port of this machine that nobody listens on."""
    with socket.socket() as it:
        it.bind(("127.0.0.1", 0))
        return it.getsockname()[1]


def command() -> List[str]:
    """The command that starts a gateway: FEDQ_GATEWAY, or fedq-gateway at the top of the checkout."""
    given = os.environ.get("FEDQ_GATEWAY")
    return shlex.split(given) if given else [str(TOP / "fedq-gateway")]


def numbers(path: pathlib.Path, count: int) -> None:
    """A CSV file of `count` rows: id, grp of a hundredth of them, a name, a flag."""
    with open(path, "w", encoding="utf-8") as it:
        it.write("id,grp,name,flag\n")
        it.writelines(f"{row},{row % 100},name {row * 7919 % count},{'t' if row % 3 else 'f'}\n" for row in range(count))


def sources(folder: pathlib.Path, middle: int = 1000, large: int = 2000) -> None:
    """Writes the sources and the init file."""
    for it in ("files", "docs"):
        (folder / it).mkdir()
    (folder / "files/people.csv").write_text(PEOPLE, encoding="utf-8")
    numbers(folder / "files/mid.csv", middle)
    numbers(folder / "files/big.csv", large)
    (folder / "docs/sales.jsonl").write_text("".join(json.dumps(it, ensure_ascii=False) + "\n" for it in SALES), encoding="utf-8")
    with sqlite3.connect(str(folder / "base.db")) as base:
        base.execute("CREATE TABLE people (id INTEGER PRIMARY KEY, name TEXT, active INTEGER)")
        base.executemany("INSERT INTO people VALUES (?, ?, ?)", STAFF)
    base.close()
    (folder / "init.sql").write_text(INIT, encoding="utf-8")


class Gateway:
    """A gateway that serves at `port` until it is closed. Its standard output and error go to files, which `said` reads."""

    def __init__(
        self,
        program: str,
        *words: str,
        users: Optional[Dict[str, str]] = None,
        middle: int = 1000,
        large: int = 2000,
        waits: bool = True,
        makes_certificate: bool = False,
    ) -> None:
        self.room = tempfile.TemporaryDirectory(prefix="fedq-gateway-")
        self.folder, self.port, self.lines_port, self.program = pathlib.Path(self.room.name), free_port(), 0, program
        (self.folder / "sockets").mkdir(mode=0o700)
        sources(self.folder, middle, large)
        if makes_certificate:
            words_of_openssl = "req -x509 -newkey rsa:2048 -nodes -days 2 -keyout key.pem -out cert.pem -subj /CN=localhost"
            words_of_openssl += " -addext subjectAltName=DNS:localhost"
            subprocess.run(["openssl", *words_of_openssl.split()], cwd=self.folder, check=True, stderr=subprocess.DEVNULL)
            (self.folder / "key.pem").chmod(0o600)
        given = [*command(), "--port", str(self.port), *words]
        if users is not None:
            file = self.folder / "users"
            file.write_text("".join(f"{name}:{verifier(password)}\n" for name, password in users.items()), encoding="utf-8")
            file.chmod(0o600)
            given += ["--users", str(file)]
        paths = [str(TOP / "python"), os.environ.get("PYTHONPATH", "")]
        env = {**os.environ, "FEDQ_PROGRAM": os.path.abspath(program), "PYTHONPATH": os.pathsep.join(filter(None, reversed(paths)))}
        with open(self.folder / "output", "wb") as output, open(self.folder / "errors", "wb") as errors:
            self.process = subprocess.Popen(
                [*given, *WORDS], cwd=self.folder, env=env, stdin=subprocess.DEVNULL, stdout=output, stderr=errors
            )
        if waits:
            self.wait()

    def __enter__(self) -> "Gateway":
        return self

    def __exit__(self, *_: Any) -> None:
        self.close()

    def wait(self, seconds: float = 20.0) -> None:
        """Returns once the port takes connections. Fails with RuntimeError where the gateway ends before."""
        end = time.monotonic() + seconds
        while self.process.poll() is None and time.monotonic() < end:
            try:
                return socket.create_connection(("127.0.0.1", self.port), 1).close()
            except OSError:
                time.sleep(0.02)
        said = self.said("errors")
        self.close()
        raise RuntimeError(f"the gateway does not serve: {said}")

    def said(self, what: str = "errors") -> str:
        """What it wrote so far to standard error, or with "output" to standard output."""
        return (self.folder / what).read_text(encoding="utf-8", errors="replace")

    def faults(self) -> List[str]:
        """Lines of standard error that show a fault of the gateway itself."""
        marks = ("Traceback", "Error:", "never retrieved", "never awaited", "Exception")
        return [it for it in self.said().splitlines() if any(mark in it for mark in marks)]

    def connect(self, user: str = "admin", **how: Any) -> Client:
        """A client that is ready for a query."""
        return Client(self.port, user, **how)

    def engine(self) -> int:
        """The process id of the engine; 0 where none runs."""
        for thread in os.listdir(f"/proc/{self.process.pid}/task"):
            with open(f"/proc/{self.process.pid}/task/{thread}/children", encoding="ascii") as it:
                children = it.read().split()
            for child in children:
                try:
                    with open(f"/proc/{child}/cmdline", "rb") as it:
                        if b"run" in it.read().split(b"\0"):
                            return int(child)
                except OSError:
                    pass
        return 0

    def kill_engine(self) -> None:
        """Kills the engine by SIGKILL."""
        pid = self.engine()
        if pid:
            os.kill(pid, signal.SIGKILL)

    def close(self) -> int:
        """Ends the gateway by SIGTERM, and by SIGKILL where that does not do; its exit status."""
        if self.process.poll() is None:
            self.process.terminate()
            try:
                self.process.wait(10)
            except subprocess.TimeoutExpired:
                self.process.kill()
        status = self.process.wait()
        self.room.cleanup()
        return status
