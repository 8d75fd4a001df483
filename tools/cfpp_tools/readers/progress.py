"""How far a run has come, as `--every` says it."""

from __future__ import annotations

import dataclasses
import re
from typing import Optional

from .lines import Lines

AT = re.compile(r"at ([1-9][0-9]*)(?: rounds ([1-9][0-9]*))?(?: moves ([1-9][0-9]*))?")


@dataclasses.dataclass(frozen=True)
class Progress:
    """How many instructions have retired, in how many rounds and moves; the sequential machine has neither, and `run` no rounds."""

    retired: int
    rounds: Optional[int] = None
    moves: Optional[int] = None


def take_progress(lines: Lines) -> Optional[Progress]:
    """What the next line says of this, or None where it is another line."""
    found = lines.take(AT)
    if found is None:
        return None
    retired, rounds, moves = (int(number) if number else None for number in found.groups())
    return Progress(retired or 0, rounds, moves)
