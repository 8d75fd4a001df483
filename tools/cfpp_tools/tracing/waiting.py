"""Which move had to wait for which: for the last one before it that used a place which it uses."""

from __future__ import annotations

from typing import Dict, List, Sequence, Tuple

from ..readers.layouts import Layout
from ..sites import Site, sites
from .following import Step

Awaited = Dict[int, List[int]]


def waits(steps: Sequence[Step], layout: Layout) -> Tuple[Awaited, Dict[int, int]]:
    """For each move the numbers of those that it had to wait for, and when it finishes: its delay after the latest of those. Without
    times each delay is 1."""
    last: Dict[Site, int] = {}
    awaited: Awaited = {}
    time: Dict[int, int] = {}
    for step in steps:
        number = step.number
        used = sites(step.move, layout)
        awaited[number] = sorted({last[site] for site in used if site in last})
        time[number] = step.finish - step.start + max((time[other] for other in awaited[number]), default=0)
        last.update(dict.fromkeys(used, number))
    return awaited, time
