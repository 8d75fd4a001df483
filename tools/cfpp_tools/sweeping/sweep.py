"""Makes the runs that a table does not have yet."""

from __future__ import annotations

import dataclasses
import itertools
import os
from typing import Sequence

from ..command_line import Stop
from ..program import Name, program
from .making import made_by_parallel, made_here
from .runs import Run, run_of
from .table import Table, rows_of


@dataclasses.dataclass(frozen=True)
class Manner:
    """How runs are made: the limit of each, whether the moves of each kind are counted, how many are made at once, and, where
    GNU parallel makes them, its options."""

    limit: int = 10_000_000
    kinds: bool = False
    jobs: int = os.cpu_count() or 1
    options: Sequence[str] = ()


def runs_of(layouts: Sequence[str], programs: Sequence[str], schedules: Sequence[str]) -> Sequence[Run]:
    """All runs of these lists, in their order."""
    runs = [Run(*run) for run in itertools.product(layouts, programs, schedules)]
    for run in runs:
        if any(character in part for part in run for character in "\t\r\n"):
            raise Stop(f"a name has a tab or a line end: {' '.join(run)!r}")
    return runs


def slice_of(runs: Sequence[Run], number: int, count: int) -> Sequence[Run]:
    """One of this many slices of the runs, counted from 1: the slices one after another are all runs."""
    return runs[len(runs) * (number - 1) // count : len(runs) * number // count]


def sweep(name: Name, runs: Sequence[Run], manner: Manner) -> None:
    """Makes the runs that the table has not yet. Where another process makes some of them, this one begins at the end."""
    program()
    with Table(name, manner.kinds) as table:
        wanted = [run for run in runs if run not in table.rows]
        with table.alone() as is_alone:
            wanted = wanted if is_alone else wanted[::-1]
        log = f"{name}.log"
        if manner.options:
            rows = made_by_parallel(wanted, table.columns, manner.limit, manner.kinds, manner.options, log)
        else:
            rows = made_here(wanted, table.rows, manner.limit, manner.kinds, manner.jobs, log)
        for row in rows:
            table.add(row)
        table.finish(runs)


def join(name: Name, tables: Sequence[Name], kinds: bool = False) -> None:
    """Puts the rows of these tables into one. Two rows of one run must agree."""
    rows = [(other, row) for other in tables for row in rows_of(other)]
    with Table(name, kinds or any("kinds" in row for _, row in rows)) as table:
        for other, row in rows:
            kept = table.rows.get(run_of(row))
            if kept is not None and kept != row:
                raise Stop(f"{other} has another row of the run {' '.join(run_of(row))}: nothing after it was joined")
            table.add(row)
