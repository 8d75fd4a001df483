"""Traces: the moves of a run, each with what retired by it and the picture after it."""

from __future__ import annotations

import dataclasses
import re
from typing import List, Optional, Tuple

from .lines import Lines, ReadFault
from .moves import Move, read_move
from .pictures import Picture, read_picture
from .progress import Progress, take_progress
from .retirements import Retirement, take_retirement

MOVE_LINE = re.compile(r"move ([1-9][0-9]*) (.+)")


@dataclasses.dataclass(frozen=True)
class Group:
    """One move of a trace: its number, the line where it begins, what retired by it, and the picture after it; and how far the run
    has come, where that is said there."""

    number: int
    line: int
    move: Move
    retirement: Optional[Retirement]
    picture: Picture
    progress: Optional[Progress] = None


def read_groups(lines: Lines) -> Tuple[Group, ...]:
    """The moves up to the first line that begins none."""
    groups: List[Group] = []
    while (found := lines.take(MOVE_LINE)) is not None:
        line = lines.at
        if int(found[1]) != len(groups) + 1:
            raise ReadFault(line, f"move {len(groups) + 1} is missing")
        move = read_move(found[2], line)
        retirement, progress = take_retirement(lines), take_progress(lines)
        groups.append(Group(len(groups) + 1, line, move, retirement, read_picture(lines), progress))
    return tuple(groups)


def read_trace(text: str) -> Tuple[str, Tuple[Group, ...]]:
    """The trace that a report begins with: its text up to the closing lines, and its groups."""
    lines = Lines(text)
    groups = read_groups(lines)
    return "".join(f"{line}\n" for line in lines.lines[: lines.at]), groups
