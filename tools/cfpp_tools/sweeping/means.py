"""Means over seeds: a row for each layout, program and schedule, whatever its seed."""

from __future__ import annotations

import csv
import io
from typing import Dict, Iterable, List, NamedTuple, Sequence

from ..readers.times import counts
from .comparing import unlike
from .runs import KINDS, Row, Run, known, run_of
from .schedules import without_seed

COLUMNS = "layout,program,schedule,runs,retired,moves,moves_spread,time,time_spread,issued".split(",")


class Mean(NamedTuple):
    """The mean of some values, and how far the farthest of them is from it, as a part of it."""

    value: float
    spread: float


def mean_of(values: Sequence[float]) -> Mean:
    """The mean of at least one value."""
    mean = sum(values) / len(values)
    return Mean(mean, max(abs(value - mean) for value in values) / mean if mean else 0.0)


def issued(row: Row) -> float:
    """How many instructions a run issued for each that retired; 0 where that was not counted."""
    kinds, retired = row.get(KINDS), row["retired"]
    return counts(kinds).get("issue", 0) / int(retired) if kinds and retired not in ("", "0") else 0.0


def groups_of(rows: Iterable[Row]) -> Dict[Run, List[Row]]:
    """The rows of each layout, program and schedule."""
    found: Dict[Run, List[Row]] = {}
    for row in rows:
        found.setdefault(run_of(row)._replace(schedule=without_seed(row["schedule"])), []).append(row)
    return found


def of_column(rows: Sequence[Row], column: str) -> Row:
    """The mean and the spread of a column, where the rows have it."""
    values = [float(row[column]) for row in rows if row[column]]
    if not values:
        return {}
    mean = mean_of(values)
    return {column: f"{mean.value:.10g}", f"{column}_spread": f"{mean.spread:.6g}"}


def means_of(rows: Sequence[Row]) -> List[Row]:
    """The means of a table. Runs that did other work than most of their program are left out."""
    different = unlike(rows)
    found = []
    for run, own in groups_of(row for row in rows if run_of(row) not in different).items():
        rates = [rate for rate in map(issued, own) if rate]
        told = known(runs=len(own), retired=own[0]["retired"], issued=f"{mean_of(rates).value:.3f}" if rates else None)
        found.append({**run._asdict(), **told, **of_column(own, "moves"), **of_column(own, "time")})
    return found


def means_text(rows: Sequence[Row]) -> str:
    """The means as CSV."""
    text = io.StringIO()
    table = csv.DictWriter(text, COLUMNS, restval="", lineterminator="\n")
    table.writeheader()
    table.writerows(means_of(rows))
    return text.getvalue()
