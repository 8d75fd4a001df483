"""What there is to show of a run at each time, from the pictures and the times of its moves."""

from __future__ import annotations

import dataclasses
from typing import Dict, Iterator, List, Optional, Sequence, Tuple

from ..readers.layouts import Layout
from ..readers.pictures import Picture
from ..sites import Site, sites
from .following import Step
from .trace import Trace


@dataclasses.dataclass
class Moment:
    """What there is to show at a time: the picture, the retired count, and the moves in progress by place. Without times the move
    that was just made has no place."""

    picture: Picture = dataclasses.field(default_factory=Picture)
    retired: int = 0
    moves: Dict[Optional[Site], str] = dataclasses.field(default_factory=dict)

    def see(self, step: Step) -> None:
        """The move is done: the picture after it holds."""
        self.picture = step.after
        self.retired = step.group.retirement.number if step.group.retirement else self.retired


def plain_moments(steps: Sequence[Step]) -> Iterator[Tuple[int, Moment]]:
    """What there is to show after each move, without times."""
    moment = Moment()
    for step in steps:
        moment.see(step)
        moment.moves[None] = step.move.text
        yield step.finish, moment


def timed_moments(steps: Sequence[Step], layout: Layout) -> Iterator[Tuple[int, Moment]]:
    """What there is to show at each time at which a move starts or finishes."""
    starts: Dict[int, List[Step]] = {}
    finishes: Dict[int, List[Step]] = {}
    for step in steps:
        starts.setdefault(step.start, []).append(step)
        finishes.setdefault(step.finish, []).append(step)
    moment = Moment()
    for time in sorted({*starts, *finishes}):
        for step in finishes.get(time, []):
            moment.see(step)
            moment.moves.update(dict.fromkeys(sites(step.move, layout), "-"))
        for step in starts.get(time, []):
            moment.moves.update(dict.fromkeys(sites(step.move, layout), step.move.text))
        yield time, moment


def moments(trace: Trace) -> Iterator[Tuple[int, Moment]]:
    """What there is to show, at each time at which something changes."""
    return timed_moments(trace.steps, trace.layout) if trace.is_timed else plain_moments(trace.steps)
