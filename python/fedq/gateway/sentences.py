"""What a client reads with a code of the program: a sentence, and a way out."""
from typing import Dict, Optional, Tuple

from ..advice import Advice
from .messages import Refused

NO_ANSWER = "whether the statement was done is not known: look before you send it again"
SENTENCES: Dict[str, Tuple[str, str]] = {
    "08P01": ("the program could not read the request", "write the statement without line ends in names and texts"),
    "0A000": ("this form is not supported here", "docs/ERRORS.md says what to write instead"),
    "22003": ("a whole number is out of the range of 64 bits", "restrict the rows, or the numbers"),
    "22012": ("division by zero", "rule such rows out in WHERE"),
    "22025": ("a LIKE pattern ends in a lone backslash", "write two backslashes for one"),
    "22P02": ("a text is none of those that may be here", "docs/ERRORS.md#22p02-invalid_text_representation has the reasons"),
    "23502": ("a NOT NULL column, or a key, would have NULL", "give the column a value"),
    "23505": ("two rows would have one key", "choose another key"),
    "2BP01": ("other objects depend on this one", "drop those first: a server's tables and mappings, a wrapper's servers"),
    "34000": ("there is no cursor of this name", "DECLARE it first; it ends with its transaction, unless it is WITH HOLD"),
    "42501": ("permission denied: only the owner may CREATE and DROP, and a write needs a user mapping with mode 'write'",
              "ask the owner for CREATE USER MAPPING .. OPTIONS (mode 'write')"),
    "42601": ("syntax error: the text is no statement of fedq's SQL", "docs/ERRORS.md#sql-that-this-profile-lacks says what to write "
              "instead"),
    "42622": ("a name has more than 63 bytes", "write a shorter one"),
    "42701": ("a column is named twice", "name it once"),
    "42702": ("a column's name is in two tables of FROM", "write table.column"),
    "42703": ("a column does not exist", "\\d NAME lists a table's columns; texts are in single quotes"),
    "42704": ("an object does not exist, or you have no user mapping on the table's server", "ask the owner for CREATE USER MAPPING FOR "
              "your name SERVER .."),
    "42710": ("the object exists already", "CREATE .. IF NOT EXISTS leaves it as it is"),
    "42712": ("two tables of FROM have one name", "give one an alias"),
    "42803": ("a column is no key of GROUP BY, or an aggregate is where none may be", "put the column into GROUP BY, or into min() or "
              "max()"),
    "42804": ("a value has another type than is required there", "nothing is converted: write a literal of the column's type"),
    "42883": ("there is no such function, or no such operator between these types", "nothing is converted; count, sum, min and max are "
              "all functions"),
    "42P01": ("a table does not exist", "\\dt lists the tables"),
    "42P03": ("the cursor exists already", "CLOSE it, or choose another name"),
    "42P07": ("the table exists already", "CREATE FOREIGN TABLE IF NOT EXISTS leaves it as it is"),
    "42P10": ("an order key cannot be used there", "order by an output's name or its place"),
    "53200": ("out of memory", "ask for fewer rows or columns, or use a cursor; nothing was changed"),
    "54000": ("a limit is exceeded", "docs/ERRORS.md#limits has all limits"),
    "55000": ("the file cannot hold what is written", "docs/ERRORS.md#55000-object_not_in_prerequisite_state says why"),
    "55006": ("an open cursor reads the table, so it cannot be written or dropped now; or another foreign table has the remote table",
              "CLOSE the cursor, or end its transaction or session, and try again"),
    "57014": ("canceling statement due to user request", ""),
    "57P01": ("the program ended while it was at work: " + NO_ANSWER, "it is started again: try again"),
    "HV000": ("a source failed", "look whether its files are there and not changed by somebody else"),
    "HV004": ("the columns are not those of the remote table", "docs/SOURCES.md says which columns a table has"),
    "HV00A": ("a file is not in its format", "`fedq-setup --check` says the line and why"),
    "HV00D": ("there is no such option here", "docs/SOURCES.md lists the options"),
    "HV00J": ("an option is missing", "docs/SOURCES.md lists the options"),
    "HV00N": ("the source is not there, or a server has it already", "name a source of the arguments that the gateway was started with"),
    "HV00R": ("there is no such file or table in the source", "look at its name: capital letters count"),
}


def refusal(code: str, name: str, found: Optional[Advice] = None) -> Refused:
    """Returns what a client reads for a code and its name, with the advice on its statement where there is some; a place before the text
    is none."""
    text, hint = SENTENCES.get(code, (name.replace("_", " "), "docs/ERRORS.md says more"))
    if found is None:
        return Refused(code, text, hint)
    return Refused(code, text, found.hint or hint, found.detail, found.begin + 1)
