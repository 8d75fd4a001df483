"""Makes the runs of the points of a space, all of them or those that a hill climb comes to."""

from __future__ import annotations

import dataclasses
import math
import pathlib
import random
from typing import Dict, Iterable, List, Optional, Sequence

from .. import commands
from ..command_line import Stop
from ..readers.layouts import Layout
from ..readers.times import counts
from ..sweeping.means import mean_of
from ..sweeping.runs import KINDS, Row, Run
from ..sweeping.sweep import Manner, sweep
from ..sweeping.table import rows_of
from .space import Point
from .task import Task


@dataclasses.dataclass(frozen=True)
class Measured:
    """A layout that was run: its name, its parts, what it costs, and its time and energy, the geometric means of the programs, of each
    the mean of the seeds. The spread says how far the farthest time of a seed is from that mean, as a part of it."""

    name: str
    layout: Layout
    cost: float
    time: float
    energy: float
    spread: float

    def measure(self, name: str) -> float:
        return float(getattr(self, name))


def mean(values: Sequence[float]) -> float:
    """The geometric mean; 0 where a value is 0."""
    return math.exp(sum(map(math.log, values)) / len(values)) if values and min(values) > 0 else 0.0


class Exploration:
    """The points that were run so far, and where their files are. A point whose layout is refused has no measures."""

    def __init__(self, task: Task, folder: pathlib.Path, options: Sequence[str]) -> None:
        self.task = task
        self.folder = folder
        self.manner = Manner(task.limit, kinds=True, options=options)
        self.found: Dict[Point, Optional[Measured]] = {}
        # Of each text the point that was the first to have it: other choices may come to the same layout.
        self.first: Dict[str, Point] = {}
        (folder / "layouts").mkdir(parents=True, exist_ok=True)

    def file(self, point: Point) -> pathlib.Path:
        """The file of a point's layout."""
        digits = len(str(self.task.space.size - 1))
        return self.folder / "layouts" / f"layout_{self.task.space.number(point):0{digits}}.toml"

    def write_all(self) -> None:
        """Writes the layouts of all points, and runs none."""
        for point in self.task.space.points():
            self.first.setdefault(self.task.space.text(point), point)
        self.write(self.first.values())

    def write(self, points: Iterable[Point]) -> None:
        """Writes the layouts of these points."""
        for point in points:
            self.file(point).write_text(self.task.space.text(point))

    def look(self, points: Iterable[Point]) -> None:
        """Runs those of the points that were not run yet."""
        unseen = [point for point in dict.fromkeys(points) if point not in self.found]
        firsts = {point: self.first.setdefault(self.task.space.text(point), point) for point in unseen}
        self.measure([point for point, first in firsts.items() if point == first])
        self.found.update({point: self.found[first] for point, first in firsts.items()})

    def measure(self, new: Sequence[Point]) -> None:
        """Runs these points, whose layouts are new."""
        self.write(new)
        layouts = commands.check_all([self.file(point) for point in new])
        taken = [name for name, (layout, _) in layouts.items() if layout]
        rows = self.rows([run for name in taken for program in self.task.programs for run in self.runs(name, program)])
        measured = {name: self.measured(name, layout, rows) for name, (layout, _) in layouts.items() if layout}
        self.found.update({point: measured.get(str(self.file(point))) for point in new})

    def runs(self, name: str, program: str) -> List[Run]:
        """The runs of a program on a layout."""
        return [Run(name, program, schedule) for schedule in self.task.schedules]

    def rows(self, runs: Sequence[Run]) -> Dict[Run, Row]:
        """The rows of these runs, which are made where the table has none."""
        table = self.folder / "runs.csv"
        sweep(table, runs, self.manner)
        wanted = set(runs)
        rows = ((Run(row["layout"], row["program"], row["schedule"]), row) for row in rows_of(table))
        return {run: row for run, row in rows if run in wanted}

    def measured(self, name: str, layout: Layout, rows: Dict[Run, Row]) -> Measured:
        """The measures of a layout."""
        programs = [[rows[run] for run in self.runs(name, program)] for program in self.task.programs]
        failed = next((row for own in programs for row in own if not row["time"]), None)
        if failed:
            raise Stop(f"{name} {failed['program']}: {failed['ending']}")
        times = [mean_of([float(row["time"]) for row in own]) for own in programs]
        energies = [mean_of([self.task.energy_of(counts(row[KINDS])) for row in own]).value for own in programs]
        time, spread = mean([found.value for found in times]), max(found.spread for found in times)
        return Measured(pathlib.Path(name).stem, layout, self.task.cost_of(layout), time, mean(energies), spread)

    @property
    def layouts(self) -> List[Measured]:
        """The layouts that were run, in the order of their names."""
        return sorted({found.name: found for found in self.found.values() if found}.values(), key=lambda found: found.name)

    @property
    def refused(self) -> int:
        """How many layouts were refused."""
        return sum(self.found[point] is None for point in self.first.values())

    def explore(self) -> None:
        """Looks at all points, or climbs where there are more than are wanted."""
        space = self.task.space
        if space.size <= self.task.most:
            self.look(space.points())
            return
        draw = random.Random(self.task.seed)
        for number in range(self.task.climbs):
            self.climb(self.start(draw), number / max(1, self.task.climbs - 1))

    def start(self, draw: random.Random) -> Point:
        """A point drawn at random whose layout is accepted."""
        for _ in range(10_000):
            point = tuple(draw.randrange(len(part.choices)) for part in self.task.space.parts)
            self.look([point])
            if self.found[point]:
                return point
        raise Stop("of 10,000 points drawn from the space none is a layout")

    def climb(self, point: Point, weight: float) -> None:
        """Goes from a point to the best of its neighbours for as long as that is better. The weight, from 0 to 1, says how much the
        second measure counts beside the first; so the climbs end along the front."""
        while len(self.found) < self.task.most:
            near = list(self.task.space.neighbours(point))
            self.look(near)
            best = min([point, *near], key=lambda other: (self.height(other, weight), other != point))
            if best == point:
                return
            point = best

    def height(self, point: Point, weight: float) -> float:
        """What a climb makes small."""
        measured = self.found[point]
        if measured is None:
            return math.inf
        first, second = (math.log(max(measured.measure(name), 1e-9)) for name in self.task.front)
        return (1 - weight) * first + weight * second
