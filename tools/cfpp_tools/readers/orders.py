"""The report of `orders`, and the lines that it writes of each move of the search."""

from __future__ import annotations

import dataclasses
import re
from typing import List, Optional

from .endings import Ending, take_ending
from .lines import Lines
from .moves import Move, read_move
from .pictures import Picture, read_picture
from .registers import Registers, read_registers
from .retirements import Retirement, read_retirement
from .tallies import Tally, read_count, read_tally

SEEN, WANTED = re.compile(r"seen (.+)"), re.compile(r"wanted (.+)")
MANY_ORDERS = re.compile(r"orders more than 18446744073709551615")
EDGE = re.compile(r"(0|[1-9][0-9]*) (0|[1-9][0-9]*) (.+)")


@dataclasses.dataclass(frozen=True)
class Counts:
    """How many states the orders of a program reach, how many moves lead on from them, from how many none does, and how many
    orders lead to those; None where these are more than 64 bits say."""

    states: int
    moves: int
    ends: int
    orders: Optional[int]


@dataclasses.dataclass(frozen=True)
class OrdersReport:
    """What was counted, where no order is wrong. Otherwise how the call ended; and where an order is wrong, what its last move
    retires and what the sequential machine would have retired, where it does, and the state that it leads to."""

    counts: Optional[Counts] = None
    ending: Optional[Ending] = None
    seen: Optional[Retirement] = None
    wanted: Optional[Retirement] = None
    retired: Optional[int] = None
    tally: Optional[Tally] = None
    registers: Optional[Registers] = None
    picture: Optional[Picture] = None


@dataclasses.dataclass(frozen=True)
class Edge:
    """A move that leads from one state to another, by their numbers, which begin at 0."""

    start: int
    end: int
    move: Move


def read_counts(lines: Lines) -> Counts:
    """The four lines of counts."""
    states, moves, ends = (read_count(lines, name) for name in ("states", "moves", "ends"))
    return Counts(states, moves, ends, None if lines.take(MANY_ORDERS) else read_count(lines, "orders"))


def read_orders(lines: Lines) -> OrdersReport:
    """The report from its first line to its last."""
    if (lines.peek() or "").startswith("states "):
        counts = read_counts(lines)
        lines.end()
        return OrdersReport(counts)
    ending = take_ending(lines)
    if ending.kind != "wrong":
        lines.end()
        return OrdersReport(ending=ending)
    seen, wanted = (read_retirement(found[1], lines.at) if (found := lines.take(form)) else None for form in (SEEN, WANTED))
    retired, tally = read_count(lines, "retired"), read_tally(lines)
    registers, picture = read_registers(lines), read_picture(lines)
    lines.end()
    return OrdersReport(None, ending, seen, wanted, retired, tally, registers, picture)


def read_edges(lines: Lines) -> List[Edge]:
    """The moves of the search, in its order."""
    edges = []
    while lines.peek() is not None:
        start, end, move = lines.need(EDGE, "move between two states").groups()
        edges.append(Edge(int(start), int(end), read_move(move, lines.at)))
    return edges
