"""Files as bytes and as text, and what their names say."""
import functools, json, os, re, stat, unicodedata
from typing import FrozenSet, Optional

from ..terminal import folder_word, path_word, shell_word
from .advice import Refused, beside, python_text

MOST_BYTES = 67_108_864
MANIFEST = "fedq-copies.json"  # what `--copy` did, in the folder of the copies
OTHER_FILES = set("md py sh sql html htm pdf png jpg doc docx log yml yaml toml xml js css ini cfg bak tmp db sqlite sqlite3".split())
LINES_FILES = {"json", "jsonl", "ndjson"}


def content(path: str) -> bytes:
    """The bytes of a file that the program would read."""
    try:
        mode = os.stat(path)
    except OSError as error:
        raise Refused(f" cannot be read: {error.strerror}") from None
    if stat.S_ISDIR(mode.st_mode):
        raise Refused(" is a folder")
    if not stat.S_ISREG(mode.st_mode):
        raise Refused(" is no file of its own, but a pipe or a device")
    if mode.st_size > MOST_BYTES:
        raise Refused(f" has {mode.st_size:,} bytes, and {MOST_BYTES:,} can be read: split it (split -l), a table each")
    try:
        with open(path, "rb") as file:
            return file.read()
    except OSError as error:
        raise Refused(f" cannot be read: {error.strerror}") from None


def packed(path: str, raw: bytes) -> None:
    """Refuses what is no text by its first bytes."""
    file = path_word(path)
    if raw[:2] == b"\x1f\x8b":
        raise Refused(f" is packed by gzip: gunzip -c {file} > {beside(path, '.csv' if '.csv' in path else '.jsonl')}", by_copy=True)
    if raw[:4] == b"PK\x03\x04":
        raise Refused(" is a workbook or a zip archive: save its sheet as \"CSV UTF-8\", or unzip it")
    if raw[:4] == b"PAR1":
        program = f'import pandas; pandas.read_parquet({python_text(path)}).to_csv("out.csv", index=False)'
        raise Refused(f" is Parquet: python3 -c {shell_word(program)}")
    if raw[:16] == b"SQLite format 3\0":
        raise Refused(f" is a SQLite database: fedq-setup --sqlite NAME={file}")
    if raw[:2] in (b"\xff\xfe", b"\xfe\xff") or raw[:400].count(b"\0") > len(raw[:400]) // 4:
        name = "utf-16" if raw[:2] in (b"\xff\xfe", b"\xfe\xff") else "utf-16le" if raw[1:2] == b"\0" else "utf-16be"
        target = beside(path, "_utf8" + os.path.splitext(path)[1])
        raise Refused(f" is in UTF-16: iconv -f {name} -t utf-8 {file} > {target}", 1, by_copy=True)


def text_of(path: str, raw: bytes) -> str:
    """The text of a file's bytes; the byte order mark stays."""
    try:
        return raw.decode()
    except UnicodeDecodeError as error:
        begin = error.start
    line = len(re.findall(rb"\r\n|\r|\n", raw[:begin])) + 1
    windows = re.search(rb"[\x80-\x9f]", raw) is not None
    target = beside(path, "_utf8" + os.path.splitext(path)[1])
    raise Refused(f" is not UTF-8: iconv -f {'cp1252' if windows else 'latin1'} -t utf-8 {path_word(path)} > {target}", line, by_copy=True)


def is_blob_name(name: str) -> bool:
    """Whether fedq reads a file of this name."""
    return re.fullmatch(r"[A-Za-z0-9_-][A-Za-z0-9_.-]{0,254}", name) is not None


@functools.lru_cache(maxsize=64)
def copies_by(manifest: str, _length: int, _time: int) -> FrozenSet[str]:
    """The names of the copies that a manifest has; none where it cannot be read. A change of it is seen by its length and time."""
    try:
        with open(manifest, encoding="utf-8") as file:
            return frozenset(json.load(file)["copies"])
    except (OSError, ValueError, KeyError, TypeError):
        return frozenset()


def is_copy(path: str) -> bool:
    """Whether `--copy` made a file, so that its first record is its heading."""
    manifest = os.path.join(os.path.dirname(path), MANIFEST)
    try:
        found = os.stat(manifest)
    except OSError:
        return False
    return os.path.basename(path) in copies_by(manifest, found.st_size, found.st_mtime_ns)


def file_fault(kind: str, folder: str, name: str) -> Optional[str]:
    """Why a file cannot be looked at; nothing where it can."""
    end = name.rpartition(".")[2].lower() if "." in name else ""
    if os.path.isdir(os.path.join(folder, name)):
        return f" is a folder: name it by itself, --{kind} NAME={folder_word(os.path.join(folder, name))}"
    if kind == "csv" and end in LINES_FILES or kind == "jsonl" and end in ("csv", "tsv"):
        return f" is not for --{kind} by its name: --{'jsonl' if kind == 'csv' else 'csv'} NAME={folder_word(folder)}"
    if not is_blob_name(name) and not is_other(name):
        plain = unicodedata.normalize("NFKD", name).encode("ascii", "ignore").decode()
        good = re.sub(r"[^A-Za-z0-9_.-]+", "_", plain).lstrip(".") or "table"
        out = "rename it" if name.endswith("\n") else f"ln -s {path_word(name)} {path_word(os.path.join(folder, good))}"
        return f" has a name that fedq does not read (A-Z a-z 0-9 _ . -, no dot first): {out}"
    return None


def is_other(name: str) -> bool:
    """Whether a file is none of tables by its name, as a page or a script."""
    end = name.rpartition(".")[2].lower() if "." in name else ""
    is_hidden = name[0] == "." and end not in {"csv", "tsv", "txt", *LINES_FILES}
    return is_hidden or end in OTHER_FILES or end.endswith(("-wal", "-shm", "-journal"))
