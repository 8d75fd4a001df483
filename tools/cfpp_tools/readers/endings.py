"""How a call ended, as the first closing line of its report says."""

from __future__ import annotations

import dataclasses
import re
from typing import Optional

from .lines import ADDRESS, Lines

REASON = r"[A-Z][A-Za-z0-9]*(?: .*)?"

# Of each kind of ending the status of the process and the form of the line. The status of `exit` is its code.
FORMS = [
    ("exit", None, r"exit (?P<code>[0-9]+)"),
    ("trap", 120, rf"trap (?P<cause>[0-7]) at (?P<pc>{ADDRESS}) detail (?P<detail>{ADDRESS})"),
    ("limit", 121, r"limit(?: (?P<number>[0-9]+))?"),
    ("script end", 0, r"script end after (?P<number>[0-9]+) moves"),
    ("bad words", 122, r"bad words at (?P<number>[0-9]+)"),
    ("bad layout", 123, rf"bad layout: (?P<reason>{REASON})"),
    ("bad program", 124, r"bad program: (?P<reason>TooLong|(?:Elf|Load) [A-Z].*)"),
    ("bad script", 125, r"bad script line (?P<line>[0-9]+): (?P<reason>UnknownMove|BadNumber|ExtraWords|NotAscii)"),
    ("bad script", 125, r"bad script: (?P<reason>TooLong)"),
    ("barred", 126, r"barred at line (?P<line>[0-9]+): (?P<reason>[A-Z][A-Za-z]+(?: x[0-9]{2})?)"),
    ("bad source", 127, rf"bad source line (?P<line>[0-9]+): (?P<reason>{REASON})"),
    ("read fault", 128, r"read fault (?P<what>layout|program|script|source|delays|trace|input)"),
    ("write fault", 129, r"write fault (?P<what>output)"),
    ("no memory", 130, r"no memory"),
    ("bad delays", 131, rf"bad delays line (?P<line>[0-9]+): (?P<reason>{REASON})"),
    ("bad delays", 131, r"bad delays: (?P<reason>TooLong)"),
    ("bad trace", 132, rf"bad trace line (?P<line>[0-9]+): (?P<reason>{REASON})"),
    ("bad trace", 132, r"bad trace: (?P<reason>TooLong)"),
    ("bad input", 137, r"bad input: (?P<reason>TooLong)"),
    ("bad log", 134, rf"bad log line (?P<line>[0-9]+): (?P<reason>{REASON})"),
    ("log end", 135, r"log end after (?P<number>[0-9]+) moves"),
    ("wrong", 136, r"wrong after (?P<number>[0-9]+) moves: (?P<what>retired|ended|output|stuck|memory)"),
    ("too many states", 121, r"more than (?P<number>[0-9]+) states"),
]
COMPILED = [(kind, status, re.compile(form, re.DOTALL)) for kind, status, form in FORMS]

# The kinds after which the report says nothing of a guest: its run has not begun.
REFUSALS = {"bad words", "bad layout", "bad program", "bad source", "bad delays", "bad trace", "bad input", "no memory", "too many states"}


@dataclasses.dataclass(frozen=True)
class Ending:
    """An ending: its line, its kind, the status of the process, and what else the line names."""

    text: str
    kind: str
    status: int
    code: Optional[int] = None
    cause: Optional[int] = None
    pc: Optional[int] = None
    detail: Optional[int] = None
    number: Optional[int] = None
    line: Optional[int] = None
    reason: Optional[str] = None
    what: Optional[str] = None


def number_of(name: str, text: str) -> int:
    """The number of a part: addresses are hexadecimal."""
    return int(text, 16 if name in ("pc", "detail") else 10)


def read_ending(text: str) -> Optional[Ending]:
    """The ending of a line, or None where it is none."""
    for kind, status, form in COMPILED:
        found = form.fullmatch(text)
        if found:
            told = {name: part for name, part in found.groupdict().items() if part is not None}
            words = {name: told.pop(name) for name in ("reason", "what") if name in told}
            numbers = {name: number_of(name, part) for name, part in told.items()}
            return Ending(text, kind, numbers["code"] if status is None else status, **numbers, **words)  # type: ignore[arg-type]
    return None


def take_ending(lines: Lines) -> Ending:
    """The ending that the next line is. A reason of a layout may hold line feeds, and then takes all lines that are left."""
    line = lines.peek() or ""
    if line.startswith("bad layout: "):
        line = "\n".join(lines.lines[lines.at :])
        lines.at = len(lines.lines) - 1
    ending = read_ending(line)
    if ending is None:
        raise lines.fault("no closing line")
    lines.at += 1
    return ending
