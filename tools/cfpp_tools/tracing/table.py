"""A trace as a table, in CSV: a row for each move, of a timed run with the ticks at which it starts and finishes."""

from __future__ import annotations

import csv
import io
from typing import List

from .following import Step
from .trace import Trace

COLUMNS = "move,kind,stage,siding,cell,guess,instruction,pc,text,event,retired".split(",")
TIMES = "start,finish".split(",")


def row(step: Step, trace: Trace, retired: int) -> List[object]:
    move, instruction = step.move, step.instruction
    known: List[object] = [""] * 3
    if instruction:
        known = [instruction.number, f"{instruction.pc:08x}", trace.texts.get(instruction.pc, "")]
    guess = instruction.guess if instruction and move.kind == "issue" else ""
    places = ["" if place is None else place for place in (move.stage, move.siding, move.cell)]
    times = [step.start, step.finish] if trace.is_timed else []
    return [step.number, move.kind, *places, guess, *known, step.event, retired, *times]


def write(trace: Trace) -> List[str]:
    """The lines of the table, its head first."""
    text = io.StringIO()
    rows = csv.writer(text, lineterminator="\n")
    rows.writerow([*COLUMNS, *TIMES] if trace.is_timed else COLUMNS)
    retired = 0
    for step in trace.steps:
        retired = step.group.retirement.number if step.group.retirement else retired
        rows.writerow(row(step, trace, retired))
    return text.getvalue().splitlines()
