"""The reports of `machine`, `run`, `moves`, `rounds` and `gen N --run`: what was shown, and the closing lines."""

from __future__ import annotations

import dataclasses
from typing import List, Optional, Tuple

from .endings import Ending, take_ending
from .lines import Lines
from .moves import Choice, read_choices
from .pictures import Picture, read_picture
from .progress import Progress, take_progress
from .registers import Registers, read_registers
from .retirements import Retirement, take_retirement
from .tallies import Tally, read_count, read_tally
from .traces import Group, read_groups


@dataclasses.dataclass(frozen=True)
class RunReport:
    """What was shown of a run, how it ended, and what the closing lines say. Those that a command does not write are None;
    where it was refused that is all but the ending."""

    ending: Ending
    retired: Optional[int] = None
    rounds: Optional[int] = None
    tally: Optional[Tally] = None
    registers: Optional[Registers] = None
    picture: Optional[Picture] = None
    choices: Tuple[Choice, ...] = ()
    retirements: Tuple[Retirement, ...] = ()
    groups: Tuple[Group, ...] = ()
    progress: Tuple[Progress, ...] = ()


def begins(lines: Lines, name: str) -> bool:
    """Whether the next line begins with this name."""
    return (lines.peek() or "").startswith(f"{name} ")


Shown = Tuple[Tuple[Retirement, ...], Tuple[Progress, ...]]


def of_groups(groups: Tuple[Group, ...]) -> Shown:
    """The retired instructions, and how far the run had come, of the moves of a trace."""
    retirements = tuple(group.retirement for group in groups if group.retirement)
    return retirements, tuple(group.progress for group in groups if group.progress)


def read_shown(lines: Lines) -> Shown:
    """The retired instructions, and how far the run had come between them, up to the first other line."""
    retirements: List[Retirement] = []
    progress: List[Progress] = []
    while (retirement := take_retirement(lines)) or (now := take_progress(lines)):
        if retirement:
            retirements.append(retirement)
        elif now:
            progress.append(now)
    return tuple(retirements), tuple(progress)


def read_run(lines: Lines) -> RunReport:
    """The report from its first line to its last."""
    groups = read_groups(lines)
    retirements, progress = of_groups(groups) if groups else read_shown(lines)
    ending = take_ending(lines)
    if not begins(lines, "retired"):
        lines.end()
        return RunReport(ending, retirements=retirements, groups=groups, progress=progress)
    retired = read_count(lines, "retired")
    rounds = read_count(lines, "rounds") if begins(lines, "rounds") else None
    tally = read_tally(lines) if begins(lines, "moves") else None
    registers = read_registers(lines)
    picture = read_picture(lines) if tally else None
    choices = read_choices(lines) if tally else ()
    lines.end()
    return RunReport(ending, retired, rounds, tally, registers, picture, choices, retirements, groups, progress)
