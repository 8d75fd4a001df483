"""A table of times for a text: how each layout compares with the first one."""

from __future__ import annotations

import pathlib
from typing import Dict, Iterator, Sequence, Tuple

from .comparing import MARK, remarks, unlike
from .means import means_of
from .runs import Row
from .schedules import read_schedule

# A program and a schedule, whatever the seed.
Heading = Tuple[str, str]


def heading_text(heading: Heading) -> str:
    """A heading of a column: the names of the program and the file of delays, whether they were drawn, and the guess rule."""
    drawn = " seeds" in heading[1]
    schedule = read_schedule(heading[1].replace(" seeds", ""))
    program, delays = (pathlib.Path(name).stem for name in (heading[0], schedule.delays))
    return " ".join(filter(None, [f"{program},", delays, "seeds" * drawn, schedule.guess]))


def cell_text(mean: Row, first: Row) -> str:
    """The time of a layout, of the first one in ticks and of each other one beside that; and how many instructions were issued for
    each that retired, where that was counted."""
    ticks = float(mean["time"])
    time = f"{ticks:,.0f}" if mean is first else f"{ticks / float(first['time']):.2f}"
    return f"{time} ({float(mean['issued']):.2f})" if mean.get("issued") else time


def line_of(layout: str, mark: str, means: Dict[Heading, Row], firsts: Dict[Heading, Row]) -> str:
    """The line of a layout; what was not measured, or cannot be compared, is left empty."""
    cells = [cell_text(means[heading], first) if heading in means else "" for heading, first in firsts.items()]
    return f"| {pathlib.Path(layout).stem}{mark} | {' | '.join(cells)} |"


def times_table(rows: Sequence[Row]) -> Iterator[str]:
    """The lines of the table, and how far times differ from seed to seed."""
    found: Dict[str, Dict[Heading, Row]] = {}
    timed = [mean for mean in means_of(rows) if mean.get("time")]
    for mean in timed:
        found.setdefault(mean["layout"], {})[mean["program"], mean["schedule"]] = mean
    firsts: Dict[Heading, Row] = next(iter(found.values()), {})
    marked = {run.layout for run in unlike(rows)}
    headings = [heading_text(heading) for heading in firsts]
    yield f"| layout | {' | '.join(headings)} |\n|---{'|---:' * len(headings)}|"
    yield from (line_of(layout, MARK if layout in marked else "", means, firsts) for layout, means in found.items())
    spread = max((float(mean["time_spread"]) for mean in timed), default=0.0)
    yield f"\nFrom seed to seed times differ from their mean by at most {100 * spread:.1f}%."
    yield from (f"\n\\* {remark}" for remark in remarks(rows))
