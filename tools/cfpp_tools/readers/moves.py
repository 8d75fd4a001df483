"""The moves, as scripts and reports write them, and which of them can be made."""

from __future__ import annotations

import dataclasses
import re
from typing import Optional, Tuple

from .lines import ADDRESS, Lines, ReadFault

# All kinds, in the order in which reports count them.
KINDS = "issue emit climb fall meet execute send launch slide access recover leave exit serve".split()
STAGE_MOVES = ("climb", "fall", "meet", "execute", "send", "launch", "recover")
BARE_MOVES = ("emit", "access", "leave", "exit", "serve")

ISSUE = re.compile(rf"issue (next|taken|wait|to {ADDRESS})")
STAGE_MOVE = re.compile(rf"({'|'.join(STAGE_MOVES)}) (0|[1-9][0-9]*)")
SLIDE = re.compile(r"slide (0|[1-9][0-9]*) (0|[1-9][0-9]*)")
BAR = r"[A-Z][A-Za-z]+(?: x[0-9]{2})?"
CHOICE = re.compile(rf"(?:allowed (.+)|barred (.+?) ({BAR}))")


@dataclasses.dataclass(frozen=True)
class Move:
    """A move as it is written, its kind, and what it names: a stage, or a siding and one of its cells."""

    text: str
    kind: str
    stage: Optional[int] = None
    siding: Optional[int] = None
    cell: Optional[int] = None


@dataclasses.dataclass(frozen=True)
class Choice:
    """A move, and what bars it; without a bar it can be made."""

    move: Move
    bar: Optional[str] = None


def read_move(text: str, line: int = 1) -> Move:
    """The move of a text, which is in this line."""
    if text in BARE_MOVES:
        return Move(text, text)
    if ISSUE.fullmatch(text):
        return Move(text, "issue")
    if found := STAGE_MOVE.fullmatch(text):
        return Move(text, found[1], stage=int(found[2]))
    if found := SLIDE.fullmatch(text):
        return Move(text, "slide", siding=int(found[1]), cell=int(found[2]))
    raise ReadFault(line, f"`{text}` is not a move")


def read_choices(lines: Lines) -> Tuple[Choice, ...]:
    """The lines `allowed ..` and `barred ..` up to the first other line."""
    found = []
    while (parts := lines.take(CHOICE)) is not None:
        found.append(Choice(read_move(parts[1] or parts[2], lines.at), parts[3]))
    return tuple(found)
