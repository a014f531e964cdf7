"""What a cell of a CSV file looks like, and the type of a column of such cells."""
import collections, functools, re
from typing import List, NamedTuple, Optional, Sequence, Set, Tuple

BOOLEANS = set("t true y yes on 1 f false n no off 0".split())
NULLS = set("\\N NA N/A n/a na #N/A NULL Null null (null) None none nil NaN nan NAN NaT <NA> - -- ?".split())
DATE = "[0-9]{4}-[0-9]{2}-[0-9]{2}"
TIME = rf" *{DATE}[T ][0-9]{{2}}:[0-9]{{2}}(:[0-9]{{2}}([.,][0-9]+)?)?"
CLOCK = "[0-9]{1,2}:[0-9]{2}(?::[0-9]{2}(?:[.,][0-9]+)?)?(?: ?[AaPp][Mm])?"
SIGNS, AMOUNT = "$€£¥%", "[0-9][0-9.,' ]*"
ZONE = r" ?(?:Z|[+-][0-9]{2}(?::?[0-9]{2})?|(?![AP]M\b)[A-Z]{2,5})(?: ?\[[A-Za-z0-9_/+-]+\])?"
MONTH = "(?:Jan|Feb|Mar|Apr|May|Jun|Jul|Aug|Sep|Oct|Nov|Dec|JAN|FEB|MAR|APR|MAY|JUN|JUL|AUG|SEP|OCT|NOV|DEC)[A-Za-z]{0,6}\\.?"
WEEKDAY = "(?:(?:Mon|Tue|Wed|Thu|Fri|Sat|Sun)[a-z]{0,6},? )?"
# Units that a number may have after it: those of one sort in one text. (No capital by itself, and no d: 12 A and 3d are no numbers.)
UNITS = ("km m cm mm nm mi mile miles ft feet in inch inches yd yards KM", "kg g mg lb lbs oz tons tonnes KG", "l ml cl gal",
         "s sec secs second seconds ms min mins minute minutes h hr hrs hour hours day days week weeks month months year years",
         "bytes kB KB MB GB TB KiB MiB GiB TiB", "mA mAh", "mV kV", "kW MW", "Wh kWh MWh kcal cal", "Hz kHz MHz GHz", "hPa kPa bar psi",
         "km/h kmh mph m/s kn", "°C °F °", "m2 m² km2 km² ha", "m3 m³", "px", "rpm", "ppm",
         *"EUR USD GBP CHF SEK NOK DKK JPY".split())
SORT_OF_UNIT = {unit: sort for sort, units in enumerate(UNITS) for unit in units.split()}
UNIT = "|".join(sorted(map(re.escape, SORT_OF_UNIT), key=len, reverse=True))
MEASURE = rf" *[+-]?(?:[0-9]{{1,3}}(?:[,. '][0-9]{{3}})+|[0-9]+)(?:[.,][0-9]+)? ?(?:{UNIT}) *"
# What a cell looks like that is neither integer nor boolean, and what is said of a column of such cells.
LOOKS = [
    ("whole", r" *[+-]?[0-9]+\.0+ *", "has whole numbers with a point ({0}), as pandas writes them beside missing values"),
    ("decimal", r" *[+-]?([0-9]+\.[0-9]*|\.[0-9]+|[0-9.]+[eE][+-]?[0-9]+) *", "has decimals ({0})"),
    ("thousands", r" *[+-]?[0-9]{1,3}([,. '][0-9]{3})+([.,][0-9]+)? *", "has marks between thousands ({0})"),
    ("comma", r" *[+-]?[0-9]+,[0-9]+ *", "has decimal commas ({0})"),
    ("signed", rf" *(?:[+-]?[{SIGNS}] ?[+-]?{AMOUNT}|[+-]?{AMOUNT} ?[{SIGNS}]) *", "has numbers with a sign of a currency or % ({0})"),
    ("infinite", r" *[+-]?[iI](?:nf|NF|nfinity|NFINITY) *", "has numbers that are not finite ({0})"),
    ("hexadecimal", r" *[+-]?0[xX][0-9a-fA-F]{1,16} *", "has hexadecimal numbers ({0})"),
    ("bracketed", rf" *(?:\([{SIGNS}]? ?{AMOUNT}\)|{AMOUNT}-|\u2212{AMOUNT}) *", "has negative numbers with brackets or a minus after ({0})"),
    ("unit", MEASURE, "has numbers with a unit ({0})"),
    ("date", rf" *{DATE} *", "has dates ({0})"),
    ("time", rf"{TIME} *", "has times ({0})"),
    ("zoned", rf"{TIME}{ZONE} *", "has times with a zone ({0})"),
    ("ymd", rf" *[0-9]{{4}}(?P<mark>[./-])[0-9]{{1,2}}(?P=mark)[0-9]{{1,2}}(?:[T ]{CLOCK})? *", "has dates ({0})"),
    ("clock", rf" *{CLOCK} *", "has times of the day ({0})"),
    ("day", r" *[0-9]{1,2}[./-][0-9]{1,2}[./-][0-9]{2,4}( [0-9:]*( ?[AaPp][Mm])?)? *", "has dates that do not begin with the year ({0})"),
    ("named", rf" *{WEEKDAY}(?:[0-9]{{1,2}}[ -]{MONTH}[ -][0-9]{{2,4}}|{MONTH} [0-9]{{1,2}},? [0-9]{{4}})(?:,? {CLOCK}(?:{ZONE})?)? *",
     "has dates with names of months ({0})"),
]
LOOK = re.compile("|".join(f"(?P<{kind}>{form})" for kind, form, _ in LOOKS))
WHOLE = re.compile(" *[+-]?[0-9]+ *")
SAID = {kind: said for kind, _, said in LOOKS}
SAID["zeros"] = "has numbers that begin with 0 ({0})"
SAID["plus"] = "has whole numbers with a plus sign ({0})"
SAID["large"] = "has numbers beyond the largest integer, 9223372036854775807 ({0})"
NUMBERS = {"bit", "integer", "whole", "decimal", "thousands", "comma", "signed", "zeros", "plus", "large"}
ODD_NUMBERS = {"infinite", "hexadecimal", "bracketed"}  # (a copy makes no whole numbers of them)
DATES = {"date", "time", "zoned", "ymd", "clock"}
BEGINS = set(" +-.0123456789\u2212") | set(SIGNS)
NAMES = set("inf jan feb mar apr may jun jul aug sep oct nov dec mon tue wed thu fri sat sun".split())  # (that some looks begin with)
MOST_FORMS = 4


class Look(NamedTuple):
    """What may surprise in a column that is text: what is said of it, its kind of `fedq.notes` or None, and whether it gives wrong
    answers, as what goes by characters does where numbers or times are meant."""
    said: str
    kind: Optional[str]
    misleads: bool


def is_integer(text: str) -> bool:
    """Whether the program reads an integer: spaces, a sign or none, digits, spaces, in range."""
    if not WHOLE.fullmatch(text):
        return False
    digits = text.strip(" ").lstrip("+-").lstrip("0")
    return len(digits) < 19 or len(digits) == 19 and -2 ** 63 <= int(text) < 2 ** 63


def is_boolean(text: str) -> bool:
    """Whether the program reads a boolean."""
    return text.lower() in BOOLEANS and text.isascii()


@functools.lru_cache(maxsize=100_000)
def kind_of(text: str) -> str:
    """What a field of a CSV file looks like: empty, bit, integer, boolean, null, text, or one of SAID."""
    if text == "":
        return "empty"
    if text in ("0", "1"):
        return "bit"
    if text.isdigit() and text.isascii() and text[0] != "0" and len(text) < 19:
        return "integer"
    if is_boolean(text):
        return "boolean"
    if text in NULLS:
        return "null"
    if text[0] not in BEGINS and text[:3].lower() not in NAMES and not (text[0] == "(" and text.rstrip(" ")[-1] == ")"):
        return "text"
    if is_integer(text):
        return "zeros" if re.match(r" *[+-]?0[0-9]", text) else "plus" if "+" in text else "integer"
    look = LOOK.fullmatch(text)
    return look.lastgroup if look else "large" if WHOLE.fullmatch(text) else "text"


def unit_of(text: str) -> str:
    """The unit after a number."""
    return text.lstrip("+-0123456789.,' ").rstrip(" ")


@functools.lru_cache(maxsize=100_000)
def form_of(text: str) -> str:
    """The form of a date or a time: its digits as 0, its zone as it is. Texts of one form sort by time."""
    zoned = re.match(rf"(.*:[0-9]{{2}}(?:[.,][0-9]+)?){ZONE} *$", text)
    begin = zoned.end(1) if zoned else len(text)
    return re.sub("[0-9]", "0", text[:begin]) + text[begin:]


class Column:
    """A column of a CSV file: how many cells look like what, the first of each, the texts that mean NULL, with their first lines, the forms
    of its dates and times, the units of its numbers, and `twice`: two texts of one number, where there are such and somebody looked."""

    def __init__(self) -> None:
        self.count, self.first, self.nulls, self.forms = collections.Counter(), {}, {}, set()  # type: collections.Counter, dict, dict, set
        self.units, self.twice = set(), None  # type: Set[str], Optional[Tuple[str, str]]

    def see(self, texts: Sequence[str], lines: Sequence[int]) -> None:
        """Takes cells in, each with its line."""
        kinds = [*map(kind_of, texts)]
        self.count.update(kinds)
        for kind in set(kinds) - set(self.first):
            for line, text in (it for at, it in enumerate(zip(lines, texts)) if kinds[at] == kind):
                if kind != "null":
                    self.first[kind] = line, text
                    break
                self.nulls.setdefault(text, line)
        if len(self.forms) < MOST_FORMS and not DATES.isdisjoint(kinds):
            self.forms.update(form_of(text) for text, kind in zip(texts, kinds) if kind in DATES)
        if "unit" in kinds:
            self.units.update(unit_of(text) for text, kind in zip(texts, kinds) if kind == "unit")

    def kinds(self) -> Set[str]:
        """What its cells look like, empty ones and those of NULL left out."""
        return set(self.first) - {"empty"}

    def type_but_nulls(self) -> str:
        """The column's type where its null texts are left out of account."""
        kinds = self.kinds()
        return "integer" if kinds and kinds <= {"bit", "integer"} else "boolean" if kinds and kinds <= {"bit", "boolean"} else "text"

    def type_under(self, null: str) -> str:
        """The column's type where `null` is the text of NULL."""
        return self.type_but_nulls() if set(self.nulls) <= {null} else "text"

    def shown(self, kind: str) -> str:
        """The first cell that looks so, and its line."""
        line, text = self.first[kind]
        return f"{text[:37] + '..' if len(text) > 40 else text!r}, line {line}"

    def is_measured(self) -> bool:
        """Whether its cells are numbers with units of one sort; some may be without, but fewer, and where all others have one unit."""
        kinds, sorts = self.kinds(), {SORT_OF_UNIT[it] for it in self.units}
        without = sum(self.count[it] for it in NUMBERS)
        return "unit" in kinds and kinds <= {"unit", *NUMBERS} and len(sorts) == 1 and without < self.count["unit"] and (
            not without or len(self.units) == 1)

    def is_decimal(self) -> bool:
        """Whether its cells are numbers, and some have a point."""
        look = self.look()
        return look is not None and look.kind == "decimal"

    def look(self) -> Optional[Look]:
        """What may surprise in this column as text, apart from its null texts; None where it is text alone."""
        kinds, many = self.kinds(), sum(self.count[it] for it in NUMBERS)
        if self.type_but_nulls() != "text":
            return Look(f"has {self.type_but_nulls()}s", "mixed", True)
        if kinds and kinds <= NUMBERS:
            kind = next((it for it in SAID if it in kinds and it != "whole"), "whole")
            is_decimal = kind in ("decimal", "whole", "thousands", "comma")
            note = "decimal" if is_decimal else "mixed" if kind in ("signed", "plus", "large") else None
            ways = f" and one number in two ways ({self.twice[0]!r} and {self.twice[1]!r})" if self.twice and is_decimal else ""
            return Look(SAID[kind].format(self.shown(kind)) + ways, note, True)
        if self.is_measured():
            return Look(SAID["unit"].format(self.shown("unit")), "unit" if kinds == {"unit"} and len(self.units) == 1 else "units", True)
        odd = sorted(kinds & ODD_NUMBERS, key=lambda it: self.first[it][0])
        if odd and kinds <= NUMBERS | ODD_NUMBERS:
            return Look(SAID[odd[0]].format(self.shown(odd[0])), "mixed", True)
        if kinds and kinds <= DATES:
            first = SAID[min(kinds, key=lambda it: self.first[it][0])].format(self.shown(min(kinds, key=lambda it: self.first[it][0])))
            if len(self.forms) == 1:
                return Look(f"{first}, in order of time", None, False)
            said = "in several zones or forms" if "zoned" in kinds else "in several forms"
            return Look(f"{first} {said}, so not in order of time", "mixed", True)
        for kind in ("day", "named"):
            if kind in kinds and kinds <= {"day", "named", *DATES}:
                return Look(SAID[kind].format(self.shown(kind)), "day_first_date", True)
        others = sum(self.count[it] for it in kinds - NUMBERS)
        if many > others > 0:
            other = min(kinds - NUMBERS, key=lambda it: self.first[it][0])
            return Look(f"has numbers in {many} cells and others in {others} ({self.shown(other)})", "mixed", True)
        return None


def null_text(columns: "List[Column]") -> str:
    """The text of NULL with which the most columns have a type other than text, then with which the most have nothing but numbers or
    dates; by default \\N."""
    single = [it for it in columns if len(it.nulls) == 1]
    votes = collections.Counter(text for it in single if it.type_but_nulls() != "text" for text in it.nulls)
    looked = NUMBERS | DATES | {"day", "unit"}
    looks = collections.Counter(text for it in single if it.kinds() and it.kinds() <= looked for text in it.nulls)
    ranked = sorted(looks | votes, key=lambda it: (-votes[it], -looks[it], it))
    return ranked[0] if ranked else "\\N"
