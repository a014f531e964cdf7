"""Counts cases: each is what is shown, what was found and what is wanted."""
import struct
from typing import Any, Callable, Iterator, List, Tuple

from support.gateways import Gateway
from support.wire import Client, Refused

Case = Tuple[str, Any, Any]
Cases = Callable[[Gateway], Iterator[Case]]
FAULTS = OSError, ValueError, RuntimeError, Refused, struct.error, KeyError, IndexError


def short(value: Any) -> str:
    """A value as a text of at most 400 characters."""
    text = repr(value)
    return text if len(text) <= 400 else f"{text[:400]}.. ({len(text)} characters)"


def counted(name: str, cases: Iterator[Case]) -> Tuple[int, List[str]]:
    """How many cases passed, and a line for each that failed. A case that breaks off is one that failed."""
    passed, wrong = 0, []
    try:
        for what, found, wanted in cases:
            passed += found == wanted
            if found != wanted:
                wrong.append(f"{name}: {what}: wanted {short(wanted)}, found {short(found)}")
    except FAULTS as fault:
        line = fault.__traceback__.tb_next.tb_lineno if fault.__traceback__ and fault.__traceback__.tb_next else 0
        wrong.append(f"{name}: broke off at line {line} with {type(fault).__name__}: {short(str(fault))}")
    return passed, wrong


def over_one(gateway: Gateway, functions: List[Cases]) -> Tuple[int, int, List[str]]:
    """Runs functions over one gateway. What the gateway says of a fault of its own on standard error counts as failed."""
    passed, wrong = 0, []
    for it in functions:
        before = len(gateway.faults())
        good, bad = counted(it.__name__, it(gateway))
        passed, wrong = passed + good, wrong + bad
        wrong += [f"{it.__name__}: standard error has {short(line)}" for line in gateway.faults()[before : before + 3]]
    return passed, len(wrong), wrong


def over_each(program: str, groups: List[Tuple[Callable[[str], Gateway], List[Cases]]]) -> Tuple[int, int, List[str]]:
    """Runs each group of functions over a gateway of its own."""
    passed, failed, wrong = 0, 0, []  # type: int, int, List[str]
    for starts, functions in groups:
        try:
            with starts(program) as gateway:
                good, bad, lines = over_one(gateway, functions)
        except FAULTS as fault:
            good, bad, lines = 0, 1, [f"no gateway for {functions[0].__name__}: {type(fault).__name__}: {short(str(fault))}"]
        passed, failed, wrong = passed + good, failed + bad, wrong + lines
    return passed, failed, wrong


def refused(connect: Callable[[], Client]) -> str:
    """The SQLSTATE with which a connection is refused, or an empty text where it is taken."""
    try:
        connect().leave()
    except Refused as fault:
        return fault.code
    except ConnectionError:
        return "closed without an error"
    return ""
