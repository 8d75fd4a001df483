"""The lines of retired instructions."""

from __future__ import annotations

import dataclasses
import re
from typing import Optional, Tuple

from .lines import ADDRESS, Lines, ReadFault

RETIREMENT = re.compile(rf"retire ([1-9][0-9]*) ({ADDRESS}) ({ADDRESS}) (?:x([0-9]{{2}})=({ADDRESS})|-)")


@dataclasses.dataclass(frozen=True)
class Retirement:
    """A retired instruction: its number, address and word, and the register that it wrote with the value, if it wrote one."""

    number: int
    pc: int
    word: int
    register: Optional[int] = None
    value: Optional[int] = None


def retirement_of(found: re.Match[str]) -> Retirement:
    """The retired instruction of these parts of a line."""
    number, pc, word, register, value = found.groups()
    written = (int(register), int(value, 16)) if register else (None, None)
    return Retirement(int(number), int(pc, 16), int(word, 16), *written)


def take_retirement(lines: Lines) -> Optional[Retirement]:
    """The retired instruction of the next line, or None where it is another line."""
    found = lines.take(RETIREMENT)
    return retirement_of(found) if found else None


def read_retirement(text: str, line: int) -> Retirement:
    """The retired instruction of a text, which is in this line."""
    found = RETIREMENT.fullmatch(text)
    if found is None:
        raise ReadFault(line, f"`{text}` is no retired instruction")
    return retirement_of(found)


def read_retirements(lines: Lines) -> Tuple[Retirement, ...]:
    """The retired instructions up to the first other line."""
    found = []
    while (retirement := take_retirement(lines)) is not None:
        found.append(retirement)
    return tuple(found)
