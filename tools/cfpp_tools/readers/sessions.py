"""The report of `debug`: the answers to its commands."""

from __future__ import annotations

import dataclasses
import re
from typing import Callable, Dict, Optional, Tuple, Union

from .endings import Ending, read_ending, take_ending
from .lines import ADDRESS, Lines
from .moves import CHOICE, Choice, Move, read_move
from .pictures import Picture, read_picture
from .registers import Registers, read_registers
from .retirements import Retirement, read_retirements


@dataclasses.dataclass(frozen=True)
class Moved:
    """A move was made."""


@dataclasses.dataclass(frozen=True)
class Retired:
    """Instructions retired by a move, or by those of the next answer."""

    retirements: Tuple[Retirement, ...]


@dataclasses.dataclass(frozen=True)
class Automatic:
    """This many moves were made by the fixed rule."""

    moves: int


@dataclasses.dataclass(frozen=True)
class Back:
    """This move was taken back."""

    move: Move


@dataclasses.dataclass(frozen=True)
class Break:
    """The break address, if there is one."""

    address: Optional[int]


@dataclasses.dataclass(frozen=True)
class Bound:
    """The weight of the state."""

    moves: int


@dataclasses.dataclass(frozen=True)
class Bytes:
    """Bytes of memory from an address on."""

    address: int
    values: Tuple[int, ...]


@dataclasses.dataclass(frozen=True)
class Code:
    """The word that is fetched at an address, and its text."""

    address: int
    word: int
    text: str


@dataclasses.dataclass(frozen=True)
class HelpLine:
    """A line of the help: the form of a command, and what it does."""

    command: str
    does: str


@dataclasses.dataclass(frozen=True)
class RefusedCommand:
    """A command that changed nothing, and why."""

    reason: str


@dataclasses.dataclass(frozen=True)
class AllRegisters:
    """The registers."""

    values: Registers


Shown = Union[Bytes, Code, Choice, HelpLine, AllRegisters, Picture]
Answer = Union[Moved, Retired, Automatic, Back, Break, Bound, Shown, RefusedCommand]


@dataclasses.dataclass(frozen=True)
class SessionReport:
    """The answers, and how the session ended where it was not by its last command."""

    answers: Tuple[Answer, ...]
    ending: Optional[Ending] = None


def bytes_of(found: re.Match[str]) -> Bytes:
    return Bytes(int(found[1], 16), tuple(bytes.fromhex(found[2])))


# The answers of one line.
FORMS: Dict[str, Callable[[re.Match[str]], Answer]] = {
    "moved": lambda found: Moved(),
    "auto ([0-9]+)": lambda found: Automatic(int(found[1])),
    "back ([a-z].+)": lambda found: Back(read_move(found[1])),
    f"break ({ADDRESS}|none)": lambda found: Break(None if found[1] == "none" else int(found[1], 16)),
    "bound ([0-9]+)": lambda found: Bound(int(found[1])),
    f"({ADDRESS})((?: [0-9a-f]{{2}}){{1,16}})": bytes_of,
    f"({ADDRESS}) ({ADDRESS}) (.+)": lambda found: Code(int(found[1], 16), int(found[2], 16), found[3]),
    CHOICE.pattern: lambda found: Choice(read_move(found[1] or found[2]), found[3]),
    "([a-z].{14}) ([a-z].+)": lambda found: HelpLine(found[1].rstrip(), found[2]),
    r"\? ([A-Z][A-Za-z]+(?: x[0-9]{2})?)": lambda found: RefusedCommand(found[1]),
}
COMPILED = [(re.compile(form), make) for form, make in FORMS.items()]


def read_answer(lines: Lines) -> Answer:
    """The next answer."""
    line = lines.peek() or ""
    if line.startswith("retire "):
        retirements = read_retirements(lines)
        if retirements:
            return Retired(retirements)
    if line.startswith("x00="):
        return AllRegisters(read_registers(lines))
    if line.startswith("fetch "):
        return read_picture(lines)
    for form, make in COMPILED:
        if found := lines.take(form):
            return make(found)
    raise lines.fault("no answer of the debugger")


def read_session(lines: Lines) -> SessionReport:
    """The report from its first line to its last."""
    answers = []
    while (line := lines.peek()) is not None and read_ending(line) is None and not line.startswith("bad layout: "):
        answers.append(read_answer(lines))
    ending = take_ending(lines) if lines.peek() is not None else None
    lines.end()
    return SessionReport(tuple(answers), ending)
