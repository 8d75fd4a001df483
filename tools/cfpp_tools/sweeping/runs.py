"""A run of a sweep, and its row."""

from __future__ import annotations

import csv
import io
import pathlib
from typing import Dict, Iterable, List, NamedTuple, Optional, Sequence, Union

from .. import commands
from ..command_line import Stop
from ..readers.runs import RunReport
from ..readers.times import TimesReport
from .schedules import read_schedule

COLUMNS = "layout,program,schedule,ending,retired,moves,meets,kills,dead,time,rounds".split(",")
# A table may have this column too: the moves of each kind, of the schedules that count them.
KINDS = "kinds"

Row = Dict[str, str]


class Run(NamedTuple):
    """What distinguishes a run from others: the names of the layout and the program, and the schedule."""

    layout: str
    program: str
    schedule: str


def row_text(row: Row, columns: Sequence[str]) -> str:
    """The row as one line."""
    text = io.StringIO()
    csv.writer(text, lineterminator="\n").writerow([row.get(column, "") for column in columns])
    return text.getvalue()


def read_rows(lines: Iterable[str], columns: Sequence[str]) -> List[Row]:
    """The rows of some lines."""
    return [dict(zip(columns, parts)) for parts in csv.reader(lines)]


def run_of(row: Row) -> Run:
    return Run(row["layout"], row["program"], row["schedule"])


def known(**values: Union[int, str, None]) -> Row:
    """The columns that have a value."""
    return {column: str(value) for column, value in values.items() if value is not None}


def of_times(report: TimesReport) -> Row:
    """What a report of `time` says, by column."""
    if not report.runs:
        return known(ending=report.ending.text if report.ending else None)
    timed = report.runs[0]
    kinds = " ".join(f"{kind}={number}" for kind, number in timed.sites.moves.items()) if timed.sites else None
    return known(ending=timed.ending.text, time=timed.time, moves=timed.moves, retired=timed.retired, kinds=kinds)


def of_run(report: RunReport) -> Row:
    """What the report of a run says, by column."""
    row = known(ending=report.ending.text, retired=report.retired, rounds=report.rounds)
    tally = report.tally
    return {**row, **(known(moves=tally.moves, meets=tally.meets, kills=tally.kills, dead=tally.dead) if tally else {})}


def guest_of(program: str) -> Optional[pathlib.Path]:
    """The file that the program reads, where there is one beside it."""
    guest = pathlib.Path(program).with_suffix(".input")
    return guest if guest.exists() else None


def make_row(run: Run, limit: int, kinds: bool) -> Row:
    """Makes one run, and gives its row."""
    schedule, guest = read_schedule(run.schedule), guest_of(run.program)
    seed, guess = schedule.seed, schedule.guess
    row: Optional[Row] = None
    if schedule.command == "time":
        show = "sites" if kinds else None
        times = commands.time(schedule.delays, run.program, [run.layout], limit=limit, show=show, seed=seed, guess=guess).report
        row = of_times(times) if times else None
    elif schedule.command == "rounds":
        report = commands.rounds(run.layout, run.program, limit=limit, guess=guess, given=guest).report
        row = of_run(report) if report else None
    else:
        report = commands.run(run.layout, run.program, seed=seed, limit=limit, guess=guess, given=guest).report
        row = of_run(report) if report else None
    if row is None:
        raise Stop(f"no report of {' '.join(run)}")
    return {"layout": run.layout, "program": run.program, "schedule": run.schedule, **row}
