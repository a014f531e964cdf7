"""Starts the program and the listeners, and ends them."""
import argparse, asyncio, gc, getpass, os, signal, socket, ssl, sys
from typing import Callable, List, Optional, Sequence

from . import words as given_words
from .connection import Connection
from .engine import Engine, Gone
from .hub import Hub
from .lineserver import Lines
from .objects import DEMO, Objects
from .scram import BadUsers, Users, add_user, is_user
from .words import BadWords

BACKLOG, END_SECONDS = 512, 5


def say(text: str) -> None:
    print(f"fedq-gateway: {text}", file=sys.stderr, flush=True)


def run(given: Optional[Sequence[str]] = None) -> int:
    """Runs the gateway until a signal ends it. Returns the status."""
    try:
        words = given_words.read(sys.argv[1:] if given is None else given)
        if words.add_user is not None:
            return new_user(words.users, words.add_user)
        return asyncio.run(serve(words))
    except (BadWords, BadUsers) as fault:
        say(str(fault))
        return 2
    except KeyboardInterrupt:
        return 130


def new_user(path: str, name: str) -> int:
    """Writes a user's verifier into the file."""
    if not is_user(name):
        raise BadWords(f"{name} is no name of a user: a-z, 0-9 and _, 1 to 63 characters, and not public, user or current_user")
    if sys.stdin.isatty():
        password = getpass.getpass(f"Password for {name}: ")
        if getpass.getpass("Again: ") != password:
            raise BadWords("the passwords differ: nothing was written")
    else:
        password = sys.stdin.readline().rstrip("\r\n")
    if not password:
        raise BadWords("the password is empty: nothing was written")
    try:
        add_user(path, name, password)
    except OSError as fault:
        raise BadWords(f"cannot write {path}: {fault.strerror}")
    return 0


def objects_of(words: argparse.Namespace) -> Objects:
    """The objects that the arguments make."""
    objects = Objects()
    for it in words.list:
        objects.note_all(DEMO.format(it))
    for path in words.init:
        try:
            with open(path, encoding="utf-8", newline="\n") as file:
                for line in file.read().split("\n"):
                    objects.note_all(line)
        except (OSError, UnicodeDecodeError) as fault:
            raise BadWords(f"cannot read init {path}: {getattr(fault, 'strerror', None) or fault}")
    return objects


def tls_of(words: argparse.Namespace) -> Optional[ssl.SSLContext]:
    if not words.cert:
        return None
    context = ssl.SSLContext(ssl.PROTOCOL_TLS_SERVER)
    context.minimum_version = ssl.TLSVersion.TLSv1_2
    try:
        context.load_cert_chain(words.cert, words.key)
    except (OSError, ssl.SSLError) as fault:
        raise BadWords(f"--cert {words.cert} --key {words.key}: {fault.strerror or fault}: a certificate and its key in PEM are expected")
    return context


async def serve(words: argparse.Namespace) -> int:
    engine = Engine(given_words.command(words), words.owner)
    hub = Hub(engine, objects_of(words), Users(words.users) if words.users else None, tls_of(words), words.spool_bytes, words.verbose)
    try:
        await hub.begin()
    except Gone:
        say(engine.complaint.decode(errors="replace").strip() or "the program ended as it began")
        return engine.transport.get_returncode() or 1
    except OSError as fault:
        raise BadWords(f"cannot start {engine.command[0]}: {fault.strerror}; FEDQ_PROGRAM may name the program")
    gc.freeze()  # (what is there now stays; a statement makes few cycles, so they are looked for seldom)
    gc.set_threshold(50_000)
    end = asyncio.Event()
    for it in (signal.SIGINT, signal.SIGTERM):
        hub.loop.add_signal_handler(it, end.set)
    servers: List[asyncio.AbstractServer] = []
    try:
        await listen(hub, words, servers)
        await end.wait()
    finally:
        await finish(hub, servers, words)
    return 0


async def listen(hub: Hub, words: argparse.Namespace, servers: List[asyncio.AbstractServer]) -> None:
    """Begins to listen, and says where."""
    if (words.csv or words.jsonl or words.sqlite) and not words.init:
        say("no --init: folders and databases have no tables yet. `fedq-setup` with the same arguments and --out FILE writes an init file")
    if words.host:
        if words.users is None:
            say("without --users whoever reaches the port, so any user of this machine, is whoever he says: keep it from others, or use "
                "--users or --socket")
        await listen_on(hub, lambda: Connection(hub), words.host, words.port, servers, "")
    if words.socket:
        path = os.path.join(words.socket, f".s.PGSQL.{words.port}")
        if is_served(path):
            raise BadWords(f"another program listens on {path}: choose another --port")
        try:
            servers.append(await hub.loop.create_unix_server(lambda: Connection(hub, True), path, backlog=BACKLOG))
        except OSError as fault:
            raise BadWords(f"cannot listen on {path}: {fault.strerror}")
        print(f"fedq-gateway: listening on {path}", flush=True)
    if words.lines_port is not None:
        if words.users is not None:
            say("the port of lines takes no password: whoever reaches it, so any user of this machine, is whoever he says")
        await listen_on(hub, lambda: Lines(hub), "127.0.0.1", words.lines_port, servers, " (lines)")


async def listen_on(hub: Hub, make: Callable[[], asyncio.Protocol], host: str, port: int, servers: List[asyncio.AbstractServer],
                    what: str) -> None:
    try:
        server = await hub.loop.create_server(make, host, port, backlog=BACKLOG)
    except OSError as fault:
        raise BadWords(f"cannot listen on port {port} of {host}: {fault.strerror}: choose another port, or end the program that has it")
    servers.append(server)
    for it in server.sockets:
        address = it.getsockname()
        print(f"fedq-gateway: listening on {address[0]}:{address[1]}{what}", flush=True)


def is_served(path: str) -> bool:
    with socket.socket(socket.AF_UNIX) as it:
        try:
            it.connect(path)
        except OSError:
            return False
    return True


async def finish(hub: Hub, servers: Sequence[asyncio.AbstractServer], words: argparse.Namespace) -> None:
    """Ends the connections and the program."""
    for it in servers:
        it.close()
    for connection in list(hub.connections.values()):
        connection.end_of_gateway()
    hub.is_again = True
    hub.engine.stop()
    hub.catalogue.close()
    hub.cutter.shutdown(wait=False)
    until = hub.loop.time() + END_SECONDS
    while hub.engine.is_up and hub.loop.time() < until:
        await asyncio.sleep(0.01)
    if hub.engine.is_up:
        hub.engine.transport.kill()
    if words.socket:
        try:
            os.unlink(os.path.join(words.socket, f".s.PGSQL.{words.port}"))
        except OSError:
            pass
