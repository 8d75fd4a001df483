"""Draws what tools/sweep measured, by gnuplot, or writes it as a table of Markdown.

    tools/plot bars TABLE [COLUMN] >SVG for each layout a bar per program: the moves for one retired instruction, or what COLUMN
                                        has (time or rounds), the mean of all its schedules, with the least and the most
    tools/plot front TABLE COLUMN >SVG  for each layout a point: its stages and the cells of its sidings, and COLUMN (time,
                                        rounds or moves) beside that of the first layout, the geometric mean of all
                                        programs. A line joins those that no other beats in both, and they alone are named
    tools/plot table TABLE >TEXT        for each program a table of its runs by the rule
    tools/plot times TABLE >TEXT        a table with a column for each program and schedule, whatever its seed: the mean time of
                                        the first layout in ticks, and of each other one beside that; in parentheses how many
                                        instructions were issued for each that retired, where tools/sweep --kinds counted them

Layouts and programs are named by their files, without directory and suffix. A layout is marked by an asterisk where a run of
it did other work than most runs of the program: it ended otherwise, or retired another number of instructions. `front` and
`times` leave such runs out of their means.
"""

from __future__ import annotations

import argparse
import collections
import csv
import math
import pathlib
import sys
from typing import DefaultDict, Dict, Iterator, List, Sequence, Tuple

from .. import command_line, commands
from ..command_line import Stop
from ..front import Point, block, drawing, escaped, gnuplot
from ..sweeping.comparing import MARK, remarks, unlike
from ..sweeping.runs import Row, run_of
from ..sweeping.times_table import times_table
from ..toml import read_toml

COUNTS = ("retired", "moves", "meets", "kills", "dead")
# What a column counts, where its name does not say it.
UNITS = {"time": "ticks"}

BARS = """set terminal svg size 1000,{height} font "sans,12" background "white"
set key outside top horizontal
set style fill solid 0.8
set xlabel "{unit} for one retired instruction"
set xrange [0:*]
set yrange [{rows}:-1]
set ytics scale 0 ({names})
set grid x
plot {plots}
"""


def name_of(file: str) -> str:
    return pathlib.Path(file).stem


def rows_of(table: str) -> List[Row]:
    with open(table, newline="") as file:
        return list(csv.DictReader(file))


def ordered(rows: Sequence[Row], column: str) -> List[str]:
    """The names in a column, in the order of their first rows."""
    return list(dict.fromkeys(row[column] for row in rows))


def rates(rows: Sequence[Row], column: str) -> Dict[Tuple[str, str], List[float]]:
    """For each layout and program what a column has for one retired instruction, of all schedules."""
    found: DefaultDict[Tuple[str, str], List[float]] = collections.defaultdict(list)
    for row in rows:
        if row[column] and row["retired"] not in ("", "0"):
            found[row["layout"], row["program"]].append(int(row[column]) / int(row["retired"]))
    return found


def marks_of(rows: Sequence[Row]) -> DefaultDict[str, str]:
    """The mark of each layout of which a run did other work than most runs of its program."""
    found: DefaultDict[str, str] = collections.defaultdict(str)
    found.update({run.layout: MARK for run in unlike(rows)})
    return found


def bar(values: List[float], low: float, thick: float) -> str:
    """The data of a bar: its length and middle, its box, and the least and the most."""
    mean = sum(values) / len(values)
    return f"{mean} {low + thick / 2} 0 {mean} {low} {low + thick} {min(values)} {max(values)}"


def bars(rows: Sequence[Row], column: str) -> str:
    layouts, programs, found = ordered(rows, "layout"), ordered(rows, "program"), rates(rows, column)
    thick = 0.8 / len(programs)
    blocks, plots = "", []
    for place, program in enumerate(programs):
        lows = {layout: at - 0.4 + place * thick for at, layout in enumerate(layouts) if found.get((layout, program))}
        blocks += block(f"b{place}", [bar(found[layout, program], low, thick) for layout, low in lows.items()])
        plots.append(f'$b{place} using 1:2:3:4:5:6 with boxxyerror title "{name_of(program)}"')
        plots.append(f"$b{place} using 1:2:7:8 with xerrorbars pt 0 lc black notitle")
    marks = marks_of(rows)
    names = ", ".join(f'"{escaped(name_of(layout) + marks[layout])}" {at}' for at, layout in enumerate(layouts))
    height = 80 + 14 * len(layouts) * len(programs)
    unit = UNITS.get(column, column)
    return gnuplot(blocks + BARS.format(height=height, unit=unit, rows=len(layouts), names=names, plots=", ".join(plots)))


def means(rows: Sequence[Row], column: str) -> Dict[str, float]:
    """For each layout the geometric mean of a column beside that of the first layout, over the runs that both have."""
    different = unlike(rows)
    of_run = {run_of(row): int(row[column]) for row in rows if row[column] not in ("", "0") and run_of(row) not in different}
    first = rows[0]["layout"]
    logs: DefaultDict[str, List[float]] = collections.defaultdict(list)
    for run, value in of_run.items():
        beside = of_run.get(run._replace(layout=first))
        if beside:
            logs[run.layout].append(math.log(value / beside))
    return {layout: math.exp(sum(parts) / len(parts)) for layout, parts in logs.items()}


def size_of(layout: str) -> int:
    """The stages and the cells of a layout. A file was accepted when it was run: it is read without the program, which would take
    most of the time."""
    if not layout.endswith(".toml"):
        shape = commands.check(layout)
        return shape.stages + shape.cells
    try:
        table = read_toml(layout)
    except FileNotFoundError as missing:
        raise Stop(f"{layout} is missing: the table names it from the directory of its sweep") from missing
    return int(table["stages"]) + sum(int(siding["cells"]) for siding in table["siding"])


def front(rows: Sequence[Row], column: str) -> str:
    marks = marks_of(rows)
    points = [Point(size_of(layout), mean, name_of(layout) + marks[layout]) for layout, mean in means(rows, column).items()]
    return drawing(points, "stages and cells", f"{column} beside that of {name_of(rows[0]['layout'])}")


def table(rows: Sequence[Row]) -> Iterator[str]:
    """The lines of the tables."""
    different = unlike(rows)
    for program in ordered(rows, "program"):
        yield f"\n`{name_of(program)}`:\n\n| layout | {' | '.join(COUNTS)} |\n|---{'|---:' * len(COUNTS)}|"
        own = [row for row in rows if row["program"] == program and row["schedule"] == "rule"]
        yield from (line_of(row, MARK if run_of(row) in different else "") for row in own)
    yield from (f"\n\\* {remark}" for remark in remarks(rows))


def line_of(row: Row, mark: str) -> str:
    """The line of a run in a table; what was not counted is left empty."""
    counts = " | ".join(f"{int(row[count]):,}" if row[count] else "" for count in COUNTS)
    return f"| {name_of(row['layout'])}{mark} | {counts} |"


TEXTS = {"table": table, "times": times_table}
DRAWINGS = {"bars": bars, "front": front}


def written(arguments: argparse.Namespace) -> str:
    """What is asked for of the table."""
    rows = rows_of(arguments.table)
    if not rows:
        raise Stop(f"{arguments.table}: it has no rows")
    try:
        if arguments.what in TEXTS:
            return "".join(f"{line}\n" for line in TEXTS[arguments.what](rows))
        return DRAWINGS[arguments.what](rows, arguments.column)
    except KeyError as fault:
        raise Stop(f"{arguments.table}: it has no column {fault}") from fault


def main(given: Sequence[str]) -> None:
    parser = command_line.parser("tools/plot", __doc__)
    parser.add_argument("what", choices=(*DRAWINGS, *TEXTS))
    parser.add_argument("table", metavar="TABLE")
    parser.add_argument("column", metavar="COLUMN", nargs="?")
    arguments = parser.parse_args(given)
    if arguments.what == "bars" and arguments.column is None:
        arguments.column = "moves"
    if (arguments.what in DRAWINGS) != (arguments.column is not None):
        parser.error("front takes a column, bars may have one, and the others take none")
    sys.stdout.write(written(arguments))
