"""Explores a space of layouts: runs them, and reports which no other beats.

    tools/explore SPACE DIRECTORY [-- OPTION OF GNU PARALLEL..]

SPACE is a TOML file, whose files are named as seen from its directory:

    [space]                         for each part of a layout its choices
    stages = { from = 2, to = 8 }           a range, with `step` where that is not 1
    lane = [2, 4, 16]                       or a list
    cache = [false, true]                   false alone where this is left out
    [space.units]
    add = [[2], [2, 4], [2, 4, "top"]]      lists of stages; "top" and "top-1" count from the top
    logic = { any = [1, 2, 3], most = 2 }   or all lists of one to two of these
    [[space.siding]]
    classes = ["memory"]
    launch = [2, 3]
    recover = ["top"]
    cells = [1, 2]

    [runs]                          which programs, with which delays (`cfpp time`)
    programs = ["sorted.bin"]
    delays = "ranges.delays"
    seeds = [1, 2, 3]                       from which the delays are drawn; the middles of their ranges where this is left out
    guess = "backward"                      a guess rule of cfpp, any where it is left out
    limit = 10000                           10,000,000 where it is left out

    [cost]                          what a layout costs: weights, 0 where they are left out
    stage = 4
    lane = 1
    cell = 2
    cache = 8
    units = { add = 3, shift = 5 }
    [energy]                        what a run costs: weights of the kinds of moves
    climb = 1
    access = 10

    [search]
    most = 2000                             this many points at most
    climbs = 8                              where the space has more: this many hill climbs
    seed = 1                                from points that are drawn from this seed
    front = ["cost", "time"]                the two measures of the front: cost, time or energy

A point of the space whose layout is refused is left out. Time and energy are geometric means of the programs, of each the mean of
its seeds; `spread` says how far the farthest time is from the mean of its seeds, as a part of it. DIRECTORY gets
`layouts/`, the layouts; `runs.csv`, the table of tools/sweep, from which a call that was interrupted goes on; `table.csv`, a row a
layout with its measures; `front.csv`, those that no other beats; `front.svg`, a plot that names these alone (by gnuplot, where it
is installed); and `best/`, their layouts. With --layouts-only it just writes the layouts of all points; tools/sweep --kinds may
then make the runs elsewhere. A layout of which a run did other work than most runs of its program is marked by an asterisk.
"""

from __future__ import annotations

import csv
import pathlib
import shutil
import sys
from typing import List, Sequence

from .. import command_line
from ..command_line import Stop
from ..exploring.explore import Exploration, Measured
from ..exploring.task import MEASURES, Task, read_task
from ..front import Point, drawing, front_of
from ..sweeping.comparing import MARK, remarks, unlike
from ..sweeping.table import rows_of

COLUMNS = ("layout", "stages", "lane", "cache", "cells", "units", *MEASURES, "spread")


def row_of(measured: Measured) -> List[object]:
    """The row of a layout."""
    layout = measured.layout
    units = " ".join(f"{name}={','.join(map(str, stages))}" for name, stages in layout.units.items())
    parts = [measured.name, layout.stages, layout.lane, int(layout.cache), layout.cells, units]
    return [*parts, *(f"{measured.measure(name):g}" for name in MEASURES), f"{measured.spread:.4f}"]


def write_table(name: pathlib.Path, layouts: Sequence[Measured]) -> None:
    with open(name, "w", newline="") as file:
        csv.writer(file, lineterminator="\n").writerows([COLUMNS, *map(row_of, layouts)])


def best_of(task: Task, layouts: Sequence[Measured]) -> List[Measured]:
    """The layouts of the front, from the one with the least of the first measure on."""
    by_name = {measured.name: measured for measured in layouts}
    return [by_name[point.name] for point in front_of(points_of(task, layouts))]


def points_of(task: Task, layouts: Sequence[Measured]) -> List[Point]:
    across, up = task.front
    return [Point(measured.measure(across), measured.measure(up), measured.name) for measured in layouts]


def keep_best(folder: pathlib.Path, best: Sequence[Measured]) -> None:
    """Puts the files of the best layouts into a directory of their own."""
    shutil.rmtree(folder / "best", ignore_errors=True)
    (folder / "best").mkdir()
    for measured in best:
        shutil.copy(folder / "layouts" / f"{measured.name}.toml", folder / "best")


def write(task: Task, folder: pathlib.Path, exploration: Exploration) -> None:
    """Writes what was found."""
    layouts = exploration.layouts
    if not layouts:
        raise Stop("no point of the space is a layout")
    best = best_of(task, layouts)
    write_table(folder / "table.csv", layouts)
    write_table(folder / "front.csv", best)
    keep_best(folder, best)
    told = f"{len(layouts):,} layouts run, {exploration.refused:,} refused, {len(best):,} that no other beats"
    print(f"{task.space.size:,} points, {told}")
    rows = rows_of(folder / "runs.csv")
    marked = {pathlib.Path(run.layout).stem for run in unlike(rows)}
    for remark in remarks(rows):
        print(f"tools/explore: {remark}", file=sys.stderr)
    for measured in best:
        print(f"{measured.name}{MARK if measured.name in marked else ''}: " + ", ".join(f"{name} {measured.measure(name):g}" for name in MEASURES))
    if shutil.which("gnuplot"):
        (folder / "front.svg").write_text(drawing(points_of(task, layouts), *task.front))


def same_space(space: pathlib.Path, folder: pathlib.Path) -> None:
    """A directory holds what was found of one space alone."""
    kept = folder / "space.toml"
    if kept.exists() and kept.read_bytes() != space.read_bytes():
        raise Stop(f"{folder} holds what was found of another space: give another directory")
    folder.mkdir(parents=True, exist_ok=True)
    kept.write_bytes(space.read_bytes())


def main(given: Sequence[str]) -> None:
    cut = list(given).index("--") if "--" in given else len(given)
    parser = command_line.parser("tools/explore", __doc__)
    parser.add_argument("space", metavar="SPACE", type=pathlib.Path)
    parser.add_argument("folder", metavar="DIRECTORY", type=pathlib.Path)
    parser.add_argument("--layouts-only", action="store_true", help="write the layouts of all points, and run none")
    arguments = parser.parse_args(given[:cut])
    task = read_task(arguments.space)
    same_space(arguments.space, arguments.folder)
    exploration = Exploration(task, arguments.folder, given[cut + 1 :])
    if arguments.layouts_only:
        exploration.write_all()
        return
    exploration.explore()
    write(task, arguments.folder, exploration)
