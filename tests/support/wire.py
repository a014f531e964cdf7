"""A small client of PostgreSQL's frontend/backend protocol, version 3.0: as the chapter of this name in PostgreSQL's documentation has it.
It reads and writes single messages too, since the tests send what no driver sends."""
import base64, hashlib, hmac, os, socket, struct
from typing import Any, Dict, List, NamedTuple, Optional, Sequence, Tuple

PROTOCOL_3, SSL_REQUEST, GSS_REQUEST, CANCEL_REQUEST = 196608, 80877103, 80877104, 80877102
INT8, BOOL, TEXT = 20, 16, 25  # oids of PostgreSQL's pg_type
SECONDS = 30.0  # after which an answer counts as none

Row = Tuple[Optional[bytes], ...]


class Refused(Exception):
    """The server refused a connection: `code` is the SQLSTATE, `text` the message."""

    def __init__(self, code: str, text: str) -> None:
        super().__init__(f"{code} {text}")
        self.code, self.text = code, text


class Column(NamedTuple):
    """A column of a RowDescription: its name, the oid of its type, and 0 for texts or 1 for binary."""

    name: str
    oid: int
    form: int


class Answer:
    """All messages up to ReadyForQuery, sorted by kind. `kinds` has their letters in order."""

    def __init__(self) -> None:
        self.kinds, self.status = "", ""
        self.columns: List[Column] = []
        self.rows: List[Row] = []
        self.tags: List[str] = []
        self.errors: List[Dict[str, str]] = []
        self.notices: List[Dict[str, str]] = []
        self.parameters: List[int] = []
        self.copied = b""

    @property
    def code(self) -> str:
        """The SQLSTATE of the first error, or an empty text."""
        return self.errors[0]["C"] if self.errors else ""

    @property
    def texts(self) -> List[Tuple[Optional[str], ...]]:
        """The rows, each field a text or None."""
        return [tuple(None if it is None else it.decode() for it in row) for row in self.rows]

    def take(self, kind: bytes, body: bytes) -> None:
        """Notes one message."""
        self.kinds += kind.decode("latin1")
        if kind == b"T":
            self.columns = columns_of(body)
        elif kind == b"D":
            self.rows.append(row_of(body))
        elif kind == b"C":
            self.tags.append(body[:-1].decode())
        elif kind == b"E":
            self.errors.append(fields_of(body))
        elif kind == b"N":
            self.notices.append(fields_of(body))
        elif kind == b"t":
            self.parameters = list(struct.unpack(f"!{(len(body) - 2) // 4}I", body[2:]))
        elif kind == b"d":
            self.copied += body
        elif kind == b"Z":
            self.status = body.decode()


def message(kind: bytes, body: bytes = b"") -> bytes:
    """A message of this kind: the kind, its length and its body."""
    return kind + struct.pack("!I", len(body) + 4) + body


def text(of: str) -> bytes:
    """A text with the zero byte that ends it."""
    return of.encode() + b"\0"


def columns_of(body: bytes) -> List[Column]:
    """The columns of a RowDescription."""
    count, made, at = struct.unpack("!H", body[:2])[0], [], 2
    for _ in range(count):
        end = body.index(b"\0", at)
        _, _, oid, _, _, form = struct.unpack("!IHIhih", body[end + 1 : end + 19])
        made.append(Column(body[at:end].decode(), oid, form))
        at = end + 19
    if at != len(body):
        raise ValueError(f"a RowDescription has {len(body) - at} bytes too many")
    return made


def row_of(body: bytes) -> Row:
    """The fields of a DataRow; None is NULL."""
    count, made, at = struct.unpack("!H", body[:2])[0], [], 2
    for _ in range(count):
        size = struct.unpack("!i", body[at : at + 4])[0]
        at += 4
        made.append(None if size < 0 else body[at : at + size])
        at += max(size, 0)
    if at != len(body):
        raise ValueError(f"a DataRow has {len(body) - at} bytes too many")
    return tuple(made)


def fields_of(body: bytes) -> Dict[str, str]:
    """The fields of an error or a notice, by their letter."""
    return {it[:1].decode(): it[1:].decode() for it in body.split(b"\0") if it}


def startup(user: Optional[str], version: int = PROTOCOL_3, **settings: str) -> bytes:
    """A StartupMessage."""
    words = {"user": user} if user is not None else {}
    words.update(settings)
    body = struct.pack("!I", version) + b"".join(text(name) + text(value) for name, value in words.items()) + b"\0"
    return struct.pack("!I", len(body) + 4) + body


def parse(sql: str, name: str = "", oids: Sequence[int] = ()) -> bytes:
    """A Parse message."""
    return message(b"P", text(name) + text(sql) + struct.pack(f"!H{len(oids)}I", len(oids), *oids))


def bind(
    values: Sequence[Optional[bytes]] = (), portal: str = "", name: str = "", forms: Sequence[int] = (), results: Sequence[int] = ()
) -> bytes:
    """A Bind message. `forms` are the formats of the values, `results` those requested for the columns: 0 is text, 1 is binary."""
    body = text(portal) + text(name) + struct.pack(f"!H{len(forms)}H", len(forms), *forms) + struct.pack("!H", len(values))
    for it in values:
        body += struct.pack("!i", -1) if it is None else struct.pack("!I", len(it)) + it
    return message(b"B", body + struct.pack(f"!H{len(results)}H", len(results), *results))


def describe(kind: bytes = b"P", name: str = "") -> bytes:
    """A Describe message of a portal (P) or a statement (S)."""
    return message(b"D", kind + text(name))


def execute(portal: str = "", most: int = 0) -> bytes:
    """An Execute message, of at most `most` rows; 0 is all."""
    return message(b"E", text(portal) + struct.pack("!I", most))


SYNC, FLUSH, TERMINATE = message(b"S"), message(b"H"), message(b"X")


def verifier(password: str, rounds: int = 4096) -> str:
    """What a file of users keeps of a password: RFC 5803's form, as PostgreSQL's `pg_authid` has it."""
    salt = os.urandom(16)
    salted = hashlib.pbkdf2_hmac("sha256", password.encode(), salt, rounds)
    stored = hashlib.sha256(hmac.digest(salted, b"Client Key", "sha256")).digest()
    server = hmac.digest(salted, b"Server Key", "sha256")
    salt_text, stored_text, server_text = (base64.b64encode(it).decode() for it in (salt, stored, server))
    return f"SCRAM-SHA-256${rounds}:{salt_text}${stored_text}:{server_text}"


class Client:
    """One connection. It is ready for a query once it is made, unless `begins` is false: then nothing was sent."""

    def __init__(
        self,
        port: int,
        user: str = "admin",
        password: Optional[str] = None,
        folder: str = "",
        begins: bool = True,
        seconds: float = SECONDS,
        **settings: str,
    ) -> None:
        if folder:
            self.socket = socket.socket(socket.AF_UNIX)
            self.socket.settimeout(seconds)
            self.socket.connect(f"{folder}/.s.PGSQL.{port}")
        else:
            self.socket = socket.create_connection(("127.0.0.1", port), seconds)
            self.socket.setsockopt(socket.IPPROTO_TCP, socket.TCP_NODELAY, 1)
        self.rest, self.at, self.settings, self.key = b"", 0, {}, (0, 0)  # type: bytes, int, Dict[str, str], Tuple[int, int]
        self.port, self.password, self.user = port, password, user
        if begins:
            try:
                self.send(startup(user, **settings))
                self.begin()
            except BaseException:
                self.close()
                raise

    def __enter__(self) -> "Client":
        return self

    def __exit__(self, *_: Any) -> None:
        self.close()

    def send(self, data: bytes) -> None:
        """Sends bytes as they are."""
        self.socket.sendall(data)

    def close(self) -> None:
        """Closes the connection without a Terminate, as a client that is killed does."""
        self.socket.close()

    def leave(self) -> None:
        """Says Terminate, and closes."""
        self.send(TERMINATE)
        self.close()

    def take(self, count: int) -> bytes:
        """The next bytes. Fails with ConnectionError where the server has closed."""
        while len(self.rest) - self.at < count:
            data = self.socket.recv(1 << 20)
            if not data:
                raise ConnectionError("the server closed the connection")
            self.rest, self.at = self.rest[self.at :] + data, 0
        self.at += count
        return self.rest[self.at - count : self.at]

    @property
    def has_more(self) -> bool:
        """Whether bytes were received that are not read yet."""
        return self.at < len(self.rest)

    def read(self) -> Tuple[bytes, bytes]:
        """The next message: its kind and its body."""
        head = self.take(5)
        return head[:1], self.take(struct.unpack("!I", head[1:])[0] - 4)

    def begin(self) -> None:
        """Reads up to the first ReadyForQuery, and answers the request for a password."""
        while True:
            kind, body = self.read()
            if kind == b"E":
                found = fields_of(body)
                raise Refused(found["C"], found["M"])
            if kind == b"R":
                self.authenticate(body)
            elif kind == b"S":
                name, value = body[:-1].split(b"\0")
                self.settings[name.decode()] = value.decode()
            elif kind == b"K":
                self.key = struct.unpack("!II", body)
            elif kind == b"Z":
                return

    def authenticate(self, body: bytes) -> None:
        """Answers one request of authentication: RFC 5802 and RFC 7677, the client's side."""
        wanted = struct.unpack("!I", body[:4])[0]
        if wanted == 10:
            self.nonce = base64.b64encode(os.urandom(18)).decode()
            first = b"n,,n=,r=" + self.nonce.encode()
            self.send(message(b"p", b"SCRAM-SHA-256\0" + struct.pack("!I", len(first)) + first))
        elif wanted == 11:
            self.send(message(b"p", self.proof(body[4:].decode()).encode()))
        elif wanted == 12:
            if body[4:].decode() != self.signature:
                raise ValueError("the server's signature is wrong: it does not know the password")
        elif wanted != 0:
            raise ValueError(f"authentication {wanted} was requested")

    def proof(self, first: str) -> str:
        """The client's last message of SCRAM."""
        parts = dict(it.split("=", 1) for it in first.split(","))
        if not parts["r"].startswith(self.nonce) or len(parts["r"]) < len(self.nonce) + 8:
            raise ValueError("the server's nonce does not continue the client's")
        salted = hashlib.pbkdf2_hmac("sha256", (self.password or "").encode(), base64.b64decode(parts["s"]), int(parts["i"]))
        without = f"c=biws,r={parts['r']}"
        signed = f"n=,r={self.nonce},{first},{without}".encode()
        client = hmac.digest(salted, b"Client Key", "sha256")
        signature = hmac.digest(hashlib.sha256(client).digest(), signed, "sha256")
        self.signature = "v=" + base64.b64encode(hmac.digest(hmac.digest(salted, b"Server Key", "sha256"), signed, "sha256")).decode()
        return f"{without},p={base64.b64encode(bytes(a ^ b for a, b in zip(client, signature))).decode()}"

    def answer(self) -> Answer:
        """All messages up to ReadyForQuery."""
        made = Answer()
        while not made.status:
            made.take(*self.read())
        return made

    def raw(self) -> bytes:
        """All bytes up to ReadyForQuery, as they come: for large answers. No message may be half read before."""
        made = [self.rest[self.at :]]
        self.rest, self.at, last = b"", 0, made[0][-6:]
        while last != b"Z\0\0\0\5I":
            data = self.socket.recv(1 << 20)
            if not data:
                raise ConnectionError("the server closed the connection")
            made.append(data)
            last = (last + data[-6:])[-6:]
        return b"".join(made)

    def query(self, sql: str) -> Answer:
        """The answer to a simple query."""
        self.send(message(b"Q", text(sql)))
        return self.answer()

    def prepared(
        self,
        sql: str,
        values: Sequence[Optional[bytes]] = (),
        oids: Sequence[int] = (),
        forms: Sequence[int] = (),
        results: Sequence[int] = (),
    ) -> Answer:
        """The answer to a query of the extended protocol, described as a statement and as a portal."""
        self.send(parse(sql, oids=oids) + describe(b"S") + bind(values, forms=forms, results=results) + describe(b"P") + execute() + SYNC)
        return self.answer()

    def cancel(self) -> None:
        """Requests, over a connection of its own, that the statement at work be cancelled; returns once the server has closed it."""
        with socket.create_connection(("127.0.0.1", self.port), SECONDS) as it:
            it.sendall(struct.pack("!IIII", 16, CANCEL_REQUEST, *self.key))
            it.recv(1)
