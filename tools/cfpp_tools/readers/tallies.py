"""What was counted over a run."""

from __future__ import annotations

import dataclasses
import re

from .lines import Lines


def read_count(lines: Lines, name: str) -> int:
    """The number of the next line, which begins with this name."""
    return int(lines.need(re.compile(rf"{name} ([0-9]+)"), f"line `{name} N`")[1])


@dataclasses.dataclass(frozen=True)
class Tally:
    """The moves that were made, the meetings among them, those that killed a result, and those in which a live instruction
    died."""

    moves: int
    meets: int
    kills: int
    dead: int


def read_tally(lines: Lines) -> Tally:
    """The four lines of counts."""
    return Tally(*(read_count(lines, name) for name in ("moves", "meets", "kills", "dead")))
