"""The report of `time`: for each layout its time, and its moves or what its time is made of where that is shown."""

from __future__ import annotations

import dataclasses
import re
from typing import Dict, List, Optional, Tuple

from .endings import Ending, read_ending, take_ending
from .lines import Lines, ReadFault
from .moves import KINDS, Move, read_move

TIMED = re.compile(r"(.+): ((?:exit|trap|limit|read fault|write fault)(?: .+?)?) time ([0-9]+) moves ([0-9]+) retired ([0-9]+)")
TIMED_MOVE = re.compile(r"move ([1-9][0-9]*) from ([0-9]+) to ([0-9]+) (.+)")
STAGE_BUSY = re.compile(r"stage ([1-9][0-9]?) busy ([0-9]+)(?: waiting ([0-9]+) empty ([0-9]+))?")
SIDING_BUSY = re.compile(r"siding ([0-7]) busy ([0-9]+)")
COUNTS = "|".join(KINDS)
MOVES = re.compile(rf"moves((?: (?:{COUNTS})=[1-9][0-9]*)*)")
CHAIN = re.compile(rf"chain((?: (?:{COUNTS})=[1-9][0-9]*)*)")
CLASSES = "add|logic|shift|compare|branch|jump|memory|mul|div|serial|free"
LATENCY = re.compile(rf"({CLASSES}) retired ([1-9][0-9]*) ticks ([0-9]+)")
LEAST = re.compile(r"least (.+)")


@dataclasses.dataclass(frozen=True)
class TimedMove:
    """A move of a timed run: its number, when it starts and when it finishes, in ticks, and the move."""

    number: int
    start: int
    finish: int
    move: Move


@dataclasses.dataclass(frozen=True)
class Use:
    """For how many ticks a stage was in use, and, where that is said, for how many it waited with an instruction or a result in
    it, and for how many it was empty: the three make up the time."""

    busy: int
    waiting: Optional[int] = None
    empty: Optional[int] = None


@dataclasses.dataclass(frozen=True)
class Latency:
    """How many instructions of a class retired, and how many ticks they took from the start of their issue to the finish of their
    leave, in all."""

    retired: int
    ticks: int


@dataclasses.dataclass(frozen=True)
class Sites:
    """What a time is made of: the use of each stage, for how many ticks each siding was in use, how many moves of each kind were
    made, in all and on one longest chain, and the latencies by class."""

    stages: Dict[int, Use]
    sidings: Dict[int, int]
    moves: Dict[str, int]
    chain: Dict[str, int]
    latencies: Dict[str, Latency] = dataclasses.field(default_factory=dict)


@dataclasses.dataclass(frozen=True)
class Timed:
    """The run on one layout, with its moves or its sites where they are shown."""

    layout: str
    ending: Ending
    time: int
    moves: int
    retired: int
    sites: Optional[Sites] = None
    made: Tuple[TimedMove, ...] = ()


@dataclasses.dataclass(frozen=True)
class TimesReport:
    """The runs, and the first layout with the least time; or the ending of a call that was not carried out."""

    runs: Tuple[Timed, ...]
    least: Optional[str] = None
    ending: Optional[Ending] = None


def take_made(lines: Lines) -> Tuple[TimedMove, ...]:
    """The moves up to the first line that is none."""
    made: List[TimedMove] = []
    while (found := lines.take(TIMED_MOVE)) is not None:
        number, start, finish = int(found[1]), int(found[2]), int(found[3])
        if number != len(made) + 1:
            raise ReadFault(lines.at, f"move {len(made) + 1} is missing")
        if finish <= start:
            raise ReadFault(lines.at, "the move takes no time")
        made.append(TimedMove(number, start, finish, read_move(found[4], lines.at)))
    return tuple(made)


def take_stages(lines: Lines) -> Dict[int, Use]:
    """By stage its use."""
    found = {}
    while (parts := lines.take(STAGE_BUSY)) is not None:
        found[int(parts[1])] = Use(*(None if part is None else int(part) for part in parts.groups()[1:]))  # type: ignore[arg-type]
    return found


def take_sidings(lines: Lines) -> Dict[int, int]:
    """By siding the ticks for which it was in use."""
    found = {}
    while (parts := lines.take(SIDING_BUSY)) is not None:
        found[int(parts[1])] = int(parts[2])
    return found


def take_latencies(lines: Lines) -> Dict[str, Latency]:
    """By class the latencies."""
    found = {}
    while (parts := lines.take(LATENCY)) is not None:
        found[parts[1]] = Latency(int(parts[2]), int(parts[3]))
    return found


def counts(text: str) -> Dict[str, int]:
    """By kind the number of moves, of a text such as `issue=3 climb=5`."""
    pairs = (part.split("=") for part in text.split())
    return {kind: int(number) for kind, number in pairs}


def take_sites(lines: Lines) -> Optional[Sites]:
    """What a time is made of, where the next lines say it."""
    stages = take_stages(lines)
    if not stages:
        return None
    sidings = take_sidings(lines)
    moves = counts(lines.need(MOVES, "line `moves ..`")[1])
    latencies = take_latencies(lines)
    return Sites(stages, sidings, moves, counts(lines.need(CHAIN, "line `chain ..`")[1]), latencies)


def take_run(lines: Lines) -> Optional[Timed]:
    """The run whose lines are next, where there is one."""
    made = take_made(lines)
    found = lines.need(TIMED, "line of a layout") if made else lines.take(TIMED)
    if found is None:
        return None
    ending = read_ending(found[2])
    if ending is None:
        raise ReadFault(lines.at, "the run has no ending")
    return Timed(found[1], ending, int(found[3]), int(found[4]), int(found[5]), take_sites(lines), made)


def read_times(lines: Lines) -> TimesReport:
    """The report from its first line to its last."""
    runs = []
    while (run := take_run(lines)) is not None:
        runs.append(run)
    least = lines.take(LEAST) if runs else None
    ending = None if least else take_ending(lines)
    lines.end()
    return TimesReport(tuple(runs), least[1] if least else None, ending)
