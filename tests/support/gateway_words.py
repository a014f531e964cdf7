"""The arguments of the gateway: what does not start, passwords, sockets, TLS, the port of lines, and how it ends."""
import os, pathlib, re, shutil, signal, socket, ssl, stat, struct, subprocess, time
from typing import Iterator, List, Optional, Tuple

from support.cases import Case, refused
from support.gateways import Gateway, command, free_port
from support.wire import SSL_REQUEST, Client, message, startup, text, verifier

SLOW = "SELECT count(*) FROM mid a, mid b WHERE a.id + b.id = 5"


def passwords(gateway: Gateway) -> Iterator[Case]:
    """SCRAM-SHA-256: right and wrong passwords, unknown users, exchanges that are not whole."""
    with gateway.connect("admin", password="secret") as it:
        yield "the right password", it.query("SELECT current_user").texts, [("admin",)]
    with gateway.connect("ann", password="päss wörd,=") as it:
        yield "a password of other letters", it.query("SELECT current_user").texts, [("ann",)]
    for user, password in [
        ("admin", "Secret"),
        ("admin", ""),
        ("admin", "secret "),
        ("ann", "secret"),
        ("nobody", "secret"),
        ("", ""),
        ("Bob", "x"),
    ]:
        yield f"{user!r} by {password!r}", refused(lambda user=user, password=password: gateway.connect(user, password=password)) in (
            "28P01",
            "28000",
        ), True
    yield from broken_exchanges(gateway)


def broken_exchanges(gateway: Gateway) -> Iterator[Case]:
    """Exchanges that are not whole, or that request another mechanism."""
    first = b"n,,n=,r=abcdefghijklmnop"
    whole = b"SCRAM-SHA-256\0" + struct.pack("!I", len(first)) + first
    for what, data in [
        ("a password in plain", [text("secret")]),
        ("another mechanism", [b"SCRAM-SHA-1\0" + whole[14:]]),
        ("channel binding without TLS", [whole.replace(b"n,,", b"p=tls-unique,,")]),
        ("no nonce", [b"SCRAM-SHA-256\0" + struct.pack("!I", 6) + b"n,,n=,"]),
        ("a length that is wrong", [whole[:14] + struct.pack("!i", -1)]),
        ("an empty proof", [whole, b"c=biws,r=abcdefghijklmnop,p="]),
        ("no proof", [whole, b"c=biws"]),
        ("bytes", [b"\xff\xfe\0\0"]),
        ("bytes later", [whole, b"\xff\xfe"]),
    ]:
        yield what, exchange(gateway, data), True
    with Client(gateway.port, begins=False) as it:
        it.send(startup("admin"))
        it.read()
        it.send(message(b"Q", text("SELECT 1")))
        kind, body = it.read()
        yield "a query in place of a password", (kind, b"C28" in body or b"C08P01" in body), (b"E", True)
    with gateway.connect("admin", password="secret") as it:
        yield "the next client", it.query("SELECT 1").texts, [("1",)]


def exchange(gateway: Gateway, answers: List[bytes]) -> bool:
    """Whether these answers are refused with 28P01, 28000 or 08P01."""
    with Client(gateway.port, begins=False) as it:
        it.send(startup("admin"))
        it.read()
        for data in answers:
            it.send(message(b"p", data))
            kind, body = it.read()
        return kind == b"E" and any(code in body for code in (b"C28P01\0", b"C28000\0", b"C08P01\0"))


# Arguments and files


def started(program: str, folder: pathlib.Path, *words: str) -> Tuple[Optional[int], str]:
    """How a gateway with these arguments ends within 10 seconds: its exit status and standard error."""
    env = {**os.environ, "FEDQ_PROGRAM": program}
    made = subprocess.Popen(
        [*command(), *words], cwd=folder, env=env, stdin=subprocess.DEVNULL, stdout=subprocess.DEVNULL, stderr=subprocess.PIPE, text=True
    )
    try:
        _, errors = made.communicate(timeout=10)
    except subprocess.TimeoutExpired:
        made.terminate()
        return None, made.communicate()[1]
    return made.returncode, errors


def words(gateway: Gateway) -> Iterator[Case]:
    """What does not start: the status is not 0, and standard error is a sentence, no traceback."""
    program, folder = os.path.abspath(gateway.program), gateway.folder
    (folder / "open").mkdir()
    (folder / "open").chmod(0o755)
    (folder / "open_users").write_text(f"admin:{verifier('x')}\n", encoding="utf-8")
    (folder / "open_users").chmod(0o644)
    (folder / "bad_users").write_text("admin\n", encoding="utf-8")
    (folder / "good_users").write_text(f"admin:{verifier('x')}\n", encoding="utf-8")
    (folder / "good_users").chmod(0o600)
    (folder / "bad_users").chmod(0o600)
    (folder / "bad.sql").write_text("CREATE FOREIGN DATA WRAPPER csv HANDLER nope\n", encoding="utf-8")
    port = ["--port", str(free_port())]
    cases = {
        "a port in use": ["--port", str(gateway.port), "--list", "demo"],
        "a port that is none": ["--port", "70000", "--list", "demo"],
        "users that others may read": [*port, "--users", "open_users", "--list", "demo"],
        "no file of users": [*port, "--users", "none", "--list", "demo"],
        "a file of users that is none": [*port, "--users", "bad_users", "--list", "demo"],
        "a folder that others may enter": [*port, "--socket", "open", "--list", "demo"],
        "no folder for the socket": [*port, "--socket", "none", "--list", "demo"],
        "no init file": [*port, "--list", "demo", "--init", "none"],
        "an init file that is refused": [*port, "--list", "demo", "--init", "bad.sql"],
        "a port of lines beside passwords": [*port, "--users", "good_users", "--lines-port", str(free_port()), "--list", "demo"],
        "a name that begins as 127": [*port, "--host", "127.example.org", "--list", "demo"],
        "an unknown word": [*port, "--nope"],
        "a source that is not there": [*port, "--csv", "files"],
    }
    for name, given in cases.items():
        status, errors = started(program, folder, *given)
        yield f"{name}: does not start", status not in (None, 0), True
        if "--users" in errors and "good_users" in given:
            yield f"{name}: the reason and the way out", (status, "--lines-without-passwords" in errors), (2, True)
        yield f"{name}: a sentence, no traceback", errors.strip() != "" and "Traceback" not in errors and "fedq" in errors, True
    yield "without --users a warning", "without --users" in gateway.said(), True
    mode = stat.S_IMODE(os.stat(gateway.folder / "sockets").st_mode)
    yield "the folder of the socket keeps its mode", mode, 0o700
    with Client(gateway.port, "admin", folder=str(gateway.folder / "sockets")) as it:
        yield "by the socket", it.query("SELECT id FROM parts WHERE id = 1").texts, [("1",)]
    yield from lines_port(gateway)
    yield from added_user(program, gateway)


def lines_port(gateway: Gateway) -> Iterator[Case]:
    """The port of lines: each connection has session numbers of its own, and is answered as the program answers."""
    asked = b"1 OPEN ann\n1 Q SELECT id FROM parts WHERE id = 1\n2 Q SELECT 1\n1 BYE\n"
    wanted = b"1 T OPEN\n1 H\tid\n1 R\t1\n1 T SELECT 1\n2 E 08003 connection_does_not_exist\n1 T BYE\n"
    with socket.create_connection(("127.0.0.1", gateway.lines_port), 10) as one, socket.create_connection(
        ("127.0.0.1", gateway.lines_port), 10
    ) as two:
        one.sendall(asked[:11])
        two.sendall(asked)
        one.sendall(asked[11:])
        yield "the port of lines", (of_lines(one, len(wanted)), of_lines(two, len(wanted))), (wanted, wanted)
        two.sendall(b"1 OPEN ann\nnothing of the kind\n1 BYE\n")
        yield "a line that is none", of_lines(two, 46), b"1 T OPEN\n0 E 08P01 protocol_violation\n1 T BYE\n"


def of_lines(of: socket.socket, count: int) -> bytes:
    """What comes, up to `count` bytes, or as far as it comes within 3 seconds."""
    made = b""
    of.settimeout(3)
    try:
        while len(made) < count:
            data = of.recv(4096)
            if not data:
                break
            made += data
    except socket.timeout:
        pass
    return made


def added_user(program: str, gateway: Gateway) -> Iterator[Case]:
    """--add-user writes a file of mode 600, whose passwords are taken; a second user leaves the first as it was."""
    file = gateway.folder / "made_users"
    for user, password in (("admin", "one"), ("ann", "two"), ("admin", "three")):
        made = subprocess.run(
            [*command(), "--users", str(file), "--add-user", user],
            input=f"{password}\n{password}\n",
            stdout=subprocess.PIPE,
            stderr=subprocess.PIPE,
            text=True,
            start_new_session=True,
            timeout=20,
        )
        yield f"--add-user {user}", (made.returncode, "Traceback" in made.stderr), (0, False)
    content = file.read_text(encoding="utf-8")
    yield "its mode", stat.S_IMODE(file.stat().st_mode), 0o600
    yield "its lines", [re.fullmatch(r"(\w+):SCRAM-SHA-256\$\d+:[^$]+\$[^:]+:.+", it) is not None for it in content.splitlines()], [
        True,
        True,
    ]
    yield "no password is in it", any(it in content for it in ("three", "dGhyZWU")), False
    with Gateway(program, "--users", str(file)) as other:
        for user, password, code in (("admin", "three", ""), ("ann", "two", ""), ("admin", "one", "28P01")):
            yield f"{user} by {password}", refused(lambda user=user, password=password: other.connect(user, password=password)), code
        yield "with --users no warning", "without --users" in other.said(), False


def tls(gateway: Gateway) -> Iterator[Case]:
    """TLS: a query over it, and that what comes before it in plain is not taken as if it had come over it."""
    context = ssl.create_default_context(cafile=str(gateway.folder / "cert.pem"))
    with Client(gateway.port, begins=False) as it:
        it.send(struct.pack("!II", 8, SSL_REQUEST))
        yield "SSLRequest with a certificate", it.take(1), b"S"
        it.socket = context.wrap_socket(it.socket, server_hostname="localhost")
        it.send(startup("admin"))
        it.begin()
        yield "a query over TLS", it.query("SELECT name FROM parts WHERE id = 1").texts, [("bolt",)]
        yield "a large answer over TLS", len(it.query("SELECT * FROM big").rows), 2000
    with Client(gateway.port, begins=False) as it:
        it.send(struct.pack("!II", 8, SSL_REQUEST) + startup("admin") + message(b"Q", text("INSERT INTO orders VALUES (66, 6, 6)")))
        found = it.socket.recv(1)
        try:
            it.socket = context.wrap_socket(it.socket, server_hostname="localhost")
            it.begin()
            it.answer()
            went_on = "it goes on"
        except (OSError, ValueError) as fault:
            went_on = "closed"
        yield "bytes in plain after SSLRequest", (found in (b"S", b"E", b""), went_on), (True, "closed")
    with Client(gateway.port, begins=False) as it:
        it.send(struct.pack("!II", 8, SSL_REQUEST))
        it.take(1)
        it.send(b"no TLS at all" * 9)
        yield "bytes that are no TLS", closes(it), True
    with gateway.connect() as it:
        yield "nothing was written", it.query("SELECT no FROM orders WHERE no = 66").rows, []


def closes(it: Client) -> bool:
    """Whether the server closes within 10 seconds."""
    it.socket.settimeout(10)
    try:
        while it.socket.recv(4096):
            pass
    except socket.timeout:
        return False
    except OSError:
        pass
    return True


def ends(program: str) -> Iterator[Case]:
    """SIGTERM and SIGINT end the gateway and its engine, with status 0 and no traceback, also while clients are at work."""
    for number in (signal.SIGTERM, signal.SIGINT):
        gateway = small(program)
        try:
            with gateway.connect() as it, gateway.connect() as busy:
                busy.send(message(b"Q", text(SLOW)))
                it.query("DECLARE c CURSOR FOR SELECT no FROM orders")
                engine = gateway.engine()
                os.kill(gateway.process.pid, number)
                status = gateway.process.wait(10)
                time.sleep(0.1)
                yield f"{number.name}: status", status in (0, -number, 128 + number), True
                yield f"{number.name}: its engine has ended", os.path.exists(f"/proc/{engine}") and b"Z" not in pathlib.Path(
                    f"/proc/{engine}/stat"
                ).read_bytes()[:60], False
                yield f"{number.name}: no traceback", gateway.faults(), []
        finally:
            gateway.close()


def with_ports(program: str) -> Gateway:
    """A gateway with a port of lines and a socket."""
    port = free_port()
    made = Gateway(program, "--host", "127.0.0.1", "--lines-port", str(port), "--socket", "sockets")
    made.lines_port = port
    return made


def with_users(program: str) -> Gateway:
    """A gateway that requires passwords."""
    return Gateway(program, users={"admin": "secret", "ann": "päss wörd,="})


def with_tls(program: str) -> Gateway:
    """A gateway with a certificate that is made for this. Fails with RuntimeError where there is no openssl."""
    if not shutil.which("openssl"):
        raise RuntimeError("openssl is needed to make a certificate")
    made = Gateway(program, "--cert", "cert.pem", "--key", "key.pem", makes_certificate=True)
    return made


def small(program: str, *words: str) -> Gateway:
    """A gateway over smaller tables, whose slow statements take a tenth of a second."""
    return Gateway(program, *words, middle=300)
