"""The arguments with which the gateway is started."""
import argparse, ipaddress, os, shutil, stat
from typing import List, Optional, Sequence

SOURCES = ("list", "csv", "jsonl", "sqlite")
SPOOL_BYTES = 1 << 30
USAGE = "fedq-gateway --port P [--host ADDRESS] [--socket DIR] [--users FILE]\n" \
        "                    [--lines-port P [--lines-without-passwords]] [--spool-bytes N]\n" \
        "                    [--cert FILE --key FILE] [--verbose] [OPTION OF fedq run]..\n" \
        "       fedq-gateway --users FILE --add-user NAME"
ABOUT = """Lets PostgreSQL's clients, up to 255 of them, use one program: psql, psycopg2, SQLAlchemy, JDBC and others.
Nothing of the gateway is proved; what the program answers is proved."""
MORE = """The options of `fedq run` name the sources: --list NAME, --csv NAME=FOLDER, --jsonl NAME=FOLDER,
--sqlite NAME=FILE, --init FILE, --owner NAME. `fedq-setup --csv NAME=FOLDER --out FILE` writes an init file.

Without --users it listens on a Unix socket (--socket), or on 127.0.0.1, where whoever reaches the port is
whoever he says. FEDQ_PROGRAM names another program than the one beside the launcher.

Examples:
  fedq-gateway --port 5440 --csv files=data --init setup.sql
  psql -h 127.0.0.1 -p 5440 -U admin fedq"""


class BadWords(Exception):
    """The arguments are wrong, or name what cannot be used; the text says which."""


def port(text: str) -> int:
    if not text.isascii() or not text.isdigit() or int(text) > 65535:
        raise argparse.ArgumentTypeError(f"a port is a number from 1 to 65535: {text}")
    return int(text)


def count(text: str) -> int:
    if not text.isascii() or not text.isdigit() or len(text) > 15:
        raise argparse.ArgumentTypeError(f"a number of bytes is expected: {text}")
    return int(text)


def parser() -> argparse.ArgumentParser:
    made = argparse.ArgumentParser("fedq-gateway", usage=USAGE, description=ABOUT, epilog=MORE, allow_abbrev=False,
                                   formatter_class=argparse.RawDescriptionHelpFormatter)
    made.add_argument("--port", type=port, metavar="P", help="the port for PostgreSQL's clients")
    made.add_argument("--host", metavar="ADDRESS", help="the address to listen on, by default 127.0.0.1; another requires --users")
    made.add_argument("--socket", metavar="DIR", help="a folder of mode 0700 for a Unix socket: who may enter it needs no password")
    made.add_argument("--users", metavar="FILE", help="the users and their passwords' verifiers, a file of mode 0600: SCRAM-SHA-256 is "
                      "asked")
    made.add_argument("--add-user", metavar="NAME", help="writes a user into the file of --users, asks for the password, and ends")
    made.add_argument("--lines-port", type=port, metavar="P", help="the port of 127.0.0.1 for clients that speak fedq's lines, without "
                      "passwords")
    made.add_argument("--lines-without-passwords", action="store_true", help="lets --lines-port be there beside --users")
    made.add_argument("--spool-bytes", type=count, metavar="N", default=SPOOL_BYTES, help="how much may wait in files for slow clients, "
                      "by default 1 GiB")
    made.add_argument("--cert", metavar="FILE", help="the certificate for TLS, in PEM")
    made.add_argument("--key", metavar="FILE", help="its private key, in PEM, which nobody else may read")
    made.add_argument("--verbose", action="store_true", help="writes one line for each connection that ends to standard error")
    made.add_argument("--owner", metavar="NAME", default="admin", help=argparse.SUPPRESS)
    for it in (*SOURCES, "init"):
        made.add_argument(f"--{it}", metavar="WORD", action="append", default=[], help=argparse.SUPPRESS)
    return made


def read(given: Sequence[str]) -> argparse.Namespace:
    """Reads the arguments. Fails with BadWords; ends with status 2 where one is none of those."""
    words = parser().parse_args(given)
    if words.add_user is not None:
        if not words.users:
            raise BadWords("--add-user needs --users FILE, the file to write into")
        return words
    if words.port is None:
        raise BadWords("--port P is missing: fedq-gateway --port 5440 --list demo")
    if words.host is None and not words.socket or words.host is None and words.users:
        words.host = "127.0.0.1"
    if words.host and not words.users and not is_loopback(words.host):
        raise BadWords(f"listening on {words.host} needs --users FILE: else whoever reaches the port is any user that he names. "
                       "`fedq-gateway --users FILE --add-user NAME` makes the file; --host 127.0.0.1 needs none")
    if words.users and words.lines_port is not None and not words.lines_without_passwords:
        raise BadWords("--lines-port takes no password, and --users requires one: whoever reaches the port of lines would need none. "
                       "Leave one of them out, or add --lines-without-passwords where that is wanted")
    if bool(words.cert) != bool(words.key):
        raise BadWords("--cert and --key go together")
    if words.key and os.path.exists(words.key) and os.stat(words.key).st_mode & 0o077:
        raise BadWords(f"{words.key}: others may read the private key: chmod 600 {words.key}")
    if words.socket:
        judge_folder(words.socket)
    return words


def is_loopback(host: str) -> bool:
    """Whether only this machine reaches an address. (A name other than localhost may be any address.)"""
    try:
        address = ipaddress.ip_address(host)
    except ValueError:
        return host == "localhost"
    return (getattr(address, "ipv4_mapped", None) or address).is_loopback


def judge_folder(path: str) -> None:
    """Fails with BadWords where others may enter the folder of the socket."""
    try:
        found = os.stat(path)
    except OSError as fault:
        raise BadWords(f"--socket {path}: {fault.strerror}: mkdir -m 700 {path}")
    if not stat.S_ISDIR(found.st_mode):
        raise BadWords(f"--socket {path}: it is no folder")
    if found.st_mode & 0o077 or found.st_uid != os.getuid():
        raise BadWords(f"--socket {path}: others may enter it, or it is another user's: chmod 700 {path}")


def command(words: argparse.Namespace) -> List[str]:
    """The program and its arguments. Fails with BadWords where there is none."""
    program: Optional[str] = os.environ.get("FEDQ_PROGRAM") or shutil.which("fedq")
    if not program:
        raise BadWords("fedq is not on the PATH, and FEDQ_PROGRAM does not name it")
    made = [program, "run", "--owner", words.owner]
    for kind in (*SOURCES, "init"):
        for it in getattr(words, kind):
            made += [f"--{kind}", it]
    return made
