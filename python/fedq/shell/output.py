"""How rows are shown: as aligned tables, one field a line, CSV, lines with TABs, tables of Markdown, an array of JSON objects, or JSON
lines."""
from __future__ import annotations

import re, unicodedata
from collections.abc import Callable
from json.encoder import encode_basestring

from ..lines import NULL, unescaped
from ..terminal import BETWEEN_FIELDS, printable, printable_rows

if False:  # (for the types alone)
    from .session import Settings

UNSAFE_IN_LINES = BETWEEN_FIELDS  # what a terminal may not be sent of whole lines
START = "1 R\t"  # before the fields of a row, as `1 H` before names
IS_NUMBER = re.compile(r"-?[0-9]+|\\N").fullmatch
NEEDS_QUOTES = re.compile('[",\r\n]')
# Where none of these is in a page, and no empty field at its ends, a TAB is a comma of CSV.
BEYOND_COMMAS = '"', ",", "\\", "\t\t", "\t\n", "\n\t", "\n\n"
MOST_KEPT = 1000000  # fields of a table that are kept as they are shown; of more the text is, and is parted once more in the end


def width_of(text: str) -> int:
    """The columns that a text takes on a terminal."""
    if text.isascii():
        return len(text)
    return sum(0 if unicodedata.category(it) in ("Mn", "Me", "Cf") else 2 if unicodedata.east_asian_width(it) in "WF" else 1 for it in text)


def padded(text: str, width: int, is_right: bool) -> str:
    """A text with spaces up to a width, before or after it."""
    spaces = " " * (width - width_of(text))
    return spaces + text if is_right else text + spaces


def counted(count: int) -> str:
    """How many rows there are, in a line."""
    return f"({count} row{'s' * (count != 1)})\n"


class Writer:
    """Takes one answer. `header` and `page` come while the reply is read, `end` when it was; `write` takes the text to show. A page is
    the text of its rows: LF is between rows and TAB between fields."""

    def __init__(self, settings, types, write) -> None:
        self.settings, self.types, self.write, self.names, self.count = settings, types, write, [], 0

    def take(self, text: str) -> None:
        """Takes whole lines of a reply: the first of all has the names of the output."""
        if not self.names:
            head, _, text = text.partition("\n")
            self.names = head[len(START):].split("\t")
            if len(self.types) != len(self.names):
                self.types = [""] * len(self.names)
            self.header()
        if text:
            self.count += text.count("\n")
            self.page(text[len(START):-1].replace("\n" + START, "\n"))

    def header(self) -> None:
        """The names are there."""

    def page(self, text: str) -> None:
        """These rows are there."""

    def end(self) -> None:
        """All rows are there."""

    def height_and_width(self) -> tuple[int, int]:
        """Lines and columns of what `end` writes."""
        return 0, 0

    def cells(self, text: str) -> list[str]:
        """All fields of a page, one row after the other, as a table shows them."""
        cells = printable_rows(text).replace("\n", "\t").split("\t")
        if NULL in text:
            null = self.settings.null
            cells = [null if it == NULL else it for it in cells]
        return cells


class Aligned(Writer):
    """A table. Its pages are kept until all are there, since the widest field of a column says how wide it is."""

    def header(self) -> None:
        self.names = list(map(printable, self.names))
        self.pages, self.widths = [], list(map(width_of, self.names))
        self.is_right, self.has_values = [it in ("", "integer") for it in self.types], [False] * len(self.names)

    def page(self, text: str) -> None:
        cells, count, is_plain = self.cells(text), len(self.names), self.is_plain(text)
        self.pages.append((is_plain, cells if self.count * count <= MOST_KEPT else text))
        width = len if is_plain else width_of
        for at in range(count):
            self.widths[at] = max(self.widths[at], max(map(width, cells[at::count])))
        if any(right and not known for right, known in zip(self.is_right, self.types)):
            self.look_for_texts(text.replace("\n", "\t").split("\t"))

    def is_plain(self, text: str) -> bool:
        """Whether each character of a page, and of what is shown for NULL, takes one column."""
        return text.isascii() and (NULL not in text or width_of(self.settings.null) == len(self.settings.null))

    def look_for_texts(self, fields: list[str]) -> None:
        """Where a column's type is not known: one with a field that is no number is aligned left, and one that has NULL alone."""
        count = len(self.names)
        for at, known in enumerate(self.types):
            if self.is_right[at] and not known:
                column = fields[at::count]
                self.is_right[at] = all(map(IS_NUMBER, column))
                self.has_values[at] = self.has_values[at] or column.count(NULL) < len(column)

    def end(self) -> None:
        self.is_right = [right and (known == "integer" or some) for right, known, some in zip(self.is_right, self.types, self.has_values)]
        self.write(self.line(self.names) + "+".join("-" * (it + 2) for it in self.widths) + "\n")
        last, count = len(self.names) - 1, len(self.names)
        forms = [f"%{it}s" if right else f"%-{it}s" if at < last else "%s"
                 for at, (it, right) in enumerate(zip(self.widths, self.is_right))]
        form = " " + " | ".join(forms) + "\n"
        for is_plain, page in self.pages:
            cells = self.cells(page) if isinstance(page, str) else page
            if is_plain:
                self.write(form * (len(cells) // count) % tuple(cells))
            else:
                self.write("".join(self.line(cells[at:at + count]) for at in range(0, len(cells), count)))
        self.write(counted(self.count))

    def line(self, cells: list[str]) -> str:
        """A line of a table."""
        parts = [padded(it, width, right) for it, width, right in zip(cells, self.widths, self.is_right)]
        if not self.is_right[-1]:
            parts[-1] = cells[-1]
        return " " + " | ".join(parts) + "\n"

    def height_and_width(self) -> tuple[int, int]:
        return self.count + 3, sum(self.widths) + 3 * len(self.widths)


class Expanded(Writer):
    """One line for each field. The pages are kept, so that the pager knows how many lines there are."""

    def header(self) -> None:
        self.names = list(map(printable, self.names))
        self.pages, wide = [], max(map(width_of, self.names))
        self.heads = [f"{padded(it, wide, False)} | " for it in self.names]
        self.wide = wide + 3

    def page(self, text: str) -> None:
        self.pages.append(text)

    def end(self) -> None:
        number = 0
        for text in self.pages:
            lines = []
            for row in text.split("\n"):
                number += 1
                lines.append(f"-[ RECORD {number} ]".ljust(self.wide, "-"))
                lines += [head + it for head, it in zip(self.heads, self.cells(row))]
            self.write("\n".join(lines) + "\n")
        self.write(counted(self.count))

    def height_and_width(self) -> tuple[int, int]:
        return self.count * (len(self.names) + 1) + 1, 0


class Csv(Writer):
    """CSV as `psql --csv` writes it: NULL is an empty field, the empty text is in quotes."""

    def header(self) -> None:
        self.write(self.row("\t".join(self.names)))

    def page(self, text: str) -> None:
        if any(it in text for it in BEYOND_COMMAS) or text[:1] in "\t\n" or text[-1] in "\t\n":
            self.write("".join(map(self.row, text.split("\n"))))
        else:
            self.write(text.replace("\t", ",") + "\n")

    def row(self, text: str) -> str:
        """A record of CSV, of the text of a row."""
        return ",".join(map(self.field, text.split("\t"))) + "\n"

    def field(self, text: str) -> str:
        """A field of CSV."""
        if text == NULL:
            return ""
        text = unescaped(text)
        return '"' + text.replace('"', '""') + '"' if not text or NEEDS_QUOTES.search(text) else text


class JsonLines(Writer):
    """JSON lines: an object a row, on a line of its own. Whole numbers and booleans are so where the shell knows the column's type, and
    else texts."""

    def header(self) -> None:
        values = {"integer": str, "boolean": {"t": "true", "f": "false"}.get}
        self.values = [values.get(it, self.text) for it in self.types]
        self.heads = [f"{', ' if at else '{'}{encode_basestring(it)}: " for at, it in enumerate(self.own_names())]

    def own_names(self) -> list[str]:
        """The names of the output; of a repeated name the second is name_2."""
        found = []
        for name in map(unescaped, self.names):
            own, number = name, 1
            while own in found:
                number += 1
                own = f"{name}_{number}"
            found.append(own)
        return found

    def text(self, field: str) -> str:
        """A text of JSON."""
        return encode_basestring(unescaped(field))

    def page(self, text: str) -> None:
        self.write("\n".join(map(self.object, text.split("\n"))) + "\n")

    def object(self, row: str) -> str:
        """An object of JSON, of the text of a row."""
        members = zip(self.heads, self.values, row.split("\t"))
        return "".join([f"{head}{'null' if it == NULL else value(it)}" for head, value, it in members]) + "}"


class Json(JsonLines):
    """An array of JSON: an object a row, each on a line of its own. It is written as the rows come; without rows it is `[]`."""

    def header(self) -> None:
        super().header()
        self.before = "["

    def page(self, text: str) -> None:
        self.write(self.before + ",\n".join(map(self.object, text.split("\n"))))
        self.before = ",\n"

    def end(self) -> None:
        self.write(f"{'' if self.count else '['}]\n")


class Tsv(Writer):
    """Lines of fields that TABs part, after a line of names, as COPY of PostgreSQL writes them: `\\N` is NULL, and backslash, TAB and line
    ends are `\\\\`, `\\t`, `\\n` and `\\r`. A reply has them so."""

    def header(self) -> None:
        self.write("\t".join(self.names) + "\n")

    def page(self, text: str) -> None:
        self.write(text + "\n")


class Markdown(Writer):
    """A table of GitHub's Markdown. Whole numbers are to the right."""

    def header(self) -> None:
        self.write(self.row(self.names, "") + self.row(["---:" if it == "integer" else "---" for it in self.types], None))

    def page(self, text: str) -> None:
        self.write("".join(self.row(it.split("\t"), self.settings.null) for it in text.split("\n")))

    def row(self, fields: list[str], null: str | None) -> str:
        """A line of the table; `null` is shown for NULL. Where it is None, for a line of marks, nothing is escaped."""
        cells = fields if null is None else [null if it == NULL and null else markdown_text(unescaped(it)) for it in fields]
        return f"| {' | '.join(cells)} |\n"


class Rows(Writer):
    """Takes rows for the shell itself, as texts; None is NULL."""

    def __init__(self) -> None:
        super().__init__(None, [], None)
        self.rows = []

    def page(self, text: str) -> None:
        self.rows += [[None if it == NULL else unescaped(it) for it in row.split("\t")] for row in text.split("\n")]


MARKS = str.maketrans({"\\": "\\\\", "|": "\\|", "<": "&lt;", "&": "&amp;", "`": "\\`", "*": "\\*", "[": "\\["})


def markdown_text(text: str) -> str:
    """A text as a cell of a table of Markdown, on one line: it is shown as it is."""
    lines = text.replace("\r\n", "\n").replace("\r", "\n").split("\n")
    return "<br>".join(printable(it.translate(MARKS)) for it in lines)


def json_printable(text: str) -> str:
    """Lines of JSON as a terminal may show them: the same values, with escapes of JSON."""
    return UNSAFE_IN_LINES.sub(lambda found: f"\\u{ord(found[0]):04x}", text)


def writer(settings: Settings, types: list[str], write: Callable[[str], None]) -> Writer:
    """What shows an answer by these settings; `types` are those of its columns, as far as they are known."""
    if settings.format == "aligned":
        return (Expanded if settings.is_expanded else Aligned)(settings, types, write)
    return {"csv": Csv, "json": Json, "jsonl": JsonLines, "tsv": Tsv, "markdown": Markdown}[settings.format](settings, types, write)


def rows_text(names: list[str], rows: list[list[str]]) -> str:
    """Names and rows of the shell's own as lines of a reply, for `Writer.take`."""
    lines = ["1 H\t" + "\t".join(map(escaped, names)), *(START + "\t".join(map(escaped, row)) for row in rows)]
    return "".join(f"{it}\n" for it in lines)


def escaped(text: str) -> str:
    """A text as a field of a reply."""
    return text.replace("\\", "\\\\").replace("\t", "\\t").replace("\n", "\\n").replace("\r", "\\r")
