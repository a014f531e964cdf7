"""Texts for a terminal: what is safe to show, and words for `sh` that a person may paste."""
import re

# Control characters of ASCII and of Latin 1, line ends of Unicode, what turns the direction of text, and halves of surrogate pairs.
UNSAFE = re.compile("[\x00-\x1f\x7f-\x9f\u061c\u200e\u200f\u2028-\u202e\u2066-\u2069\ud800-\udfff]")
BETWEEN_FIELDS = re.compile(UNSAFE.pattern.replace("\x00-\x1f", "\x00-\x08\x0b-\x1f"))
ESCAPES = {"\t": "\\t", "\n": "\\n", "\r": "\\r"}
UNSAFE_BYTES = bytes([*range(32), 127])
FIELD_BYTES = bytes(it for it in UNSAFE_BYTES if it not in b"\t\n")
PLAIN = re.compile(r"[A-Za-z0-9_./ +=:,@\-\[\]{}()|<>;*?&#~^\"]")


def escape(found: "re.Match") -> str:
    """A character as an escape: \\x1b, \\u202e; a byte of a file's name that is no UTF-8 as \\xff."""
    number = ord(found[0])
    if 0xDC80 <= number <= 0xDCFF:
        number -= 0xDC00
    return ESCAPES.get(found[0]) or (f"\\x{number:02x}" if number < 256 else f"\\u{number:04x}")


def printable(text: str) -> str:
    """A text as a terminal may show it, on one line: nothing of it is a command to the terminal, ends a line or turns the direction of
    text. What is printable stays as it is, a backslash too."""
    if text.isascii() and len(text) == len(text.encode().translate(None, UNSAFE_BYTES)):
        return text
    return UNSAFE.sub(escape, text)


def printable_rows(text: str) -> str:
    """As `printable`, for rows whose fields TABs part and which LF ends: these stay."""
    if text.isascii() and len(text) == len(text.encode().translate(None, FIELD_BYTES)):
        return text
    return BETWEEN_FIELDS.sub(escape, text)


def octal(text: str) -> str:
    """The bytes of a text as printf writes them."""
    return "".join(f"\\{it:03o}" for it in text.encode("utf-8", "surrogateescape"))


def shell_word(text: str) -> str:
    """A text as one word of a command for `sh`. Where it is not safe to show, printf makes it. Fails with ValueError where such a text
    ends in LF, since `$(..)` takes LF away at the end."""
    if printable(text) == text:
        import shlex
        return shlex.quote(text)
    if text.endswith("\n"):
        raise ValueError("a word that ends in a line end")
    is_plain = PLAIN.fullmatch
    inner = "".join(it if is_plain(it) or not it.isascii() and not UNSAFE.match(it) else octal(it) for it in text)
    return f"\"$(printf -- '{inner}')\"" if inner.startswith("-") else f"\"$(printf '{inner}')\""


def path_word(path: str) -> str:
    """A path as one word of a command for `sh`, which no program takes for an option."""
    return shell_word(f"./{path}" if path.startswith("-") else path)


def folder_word(folder: str) -> str:
    """A folder as it follows `NAME=` in a command. Where its name ends in a line end, `/` follows, since no command could end so."""
    return path_word(folder + "/" if folder.endswith("\n") else folder)
