"""What helps with a statement that was refused: where in its text, what was found there, and what to write instead.

`advice` calls the modules of this package by the code of the refusal; `shown` makes lines of it. Nothing of it is proved, and nothing of it
changes an answer."""
from .advising import Advice, advice
from .shown import shown

__all__ = ["Advice", "advice", "shown"]
