"""Whether a file meets a goal: the first thing that is wrong with it."""

from __future__ import annotations

import pathlib
from typing import Callable, Dict, Iterator, Optional, Sequence, Tuple

from .. import commands
from ..commands import Refused
from ..readers.layouts import Layout
from ..readers.runs import RunReport
from .goals import Goal
from .rounds import round_fault

# What a number must hold to, and how one says it.
LEAST: Tuple[Callable[[int, int], bool], str] = (lambda has, wanted: has >= wanted, "at least ")
MOST: Tuple[Callable[[int, int], bool], str] = (lambda has, wanted: has <= wanted, "at most ")
EQUAL: Tuple[Callable[[int, int], bool], str] = (lambda has, wanted: has == wanted, "")


def number_fault(what: str, has: int, wanted: Optional[int], rule: Tuple[Callable[[int, int], bool], str]) -> Iterator[str]:
    """What is wrong with a number, if it is asked for."""
    if wanted is not None and not rule[0](has, wanted):
        yield f"{what} is {has}, and {rule[1]}{wanted} is wanted"


def ending_fault(report: RunReport, wanted: str) -> Iterator[str]:
    """What is wrong with the ending: it has the wanted line, or its kind and reason begin so."""
    ending = report.ending
    told = f"{ending.kind} {ending.reason}" if ending.reason else ending.kind
    if wanted not in (ending.text, told, ending.kind):
        yield f"it ends with `{ending.text}`, and `{wanted}` is wanted"


def registers_fault(report: RunReport, wanted: Dict[str, int]) -> Iterator[str]:
    """Which registers have another value."""
    for name, value in wanted.items():
        has = (report.registers or ())[int(name[1:])]
        if has != value % (1 << 32):
            yield f"{name} is {has:#x}, and {value % (1 << 32):#x} is wanted"


def bars_fault(report: RunReport, wanted: Dict[str, str]) -> Iterator[str]:
    """Which moves are not barred as they should be."""
    bars = {choice.move.text: choice.bar for choice in report.choices}
    for move, bar in wanted.items():
        if bars.get(move, "no such move") != bar:
            has = bars.get(move, "no move here")
            yield f"`{move}` is {f'barred by {has}' if has else 'allowed'}, and {bar} is wanted"


def run_faults(report: RunReport, goal: Goal) -> Iterator[str]:
    """What is wrong at the end of a run."""
    yield from ending_fault(report, goal.ending)
    if report.registers is None or report.tally is None or report.picture is None:
        yield f"it was not run: {report.ending.text}"
        return
    yield from number_fault("retired", report.retired or 0, goal.retired, EQUAL)
    yield from registers_fault(report, goal.registers)
    if goal.empty is not None and report.picture.is_empty != goal.empty:
        yield "something is left in the pipes" if goal.empty else "the pipes are empty"
    if goal.fetch is not None and report.picture.fetch != goal.fetch:
        yield f"fetch is at {report.picture.fetch or 0:08x}, and {goal.fetch:08x} is wanted"
    yield from number_fault("the number of moves", report.tally.moves, goal.moves_at_most, MOST)
    yield from number_fault("the number of kills", report.tally.kills, goal.kills_at_least, LEAST)
    yield from number_fault("the number of dead instructions", report.tally.dead, goal.dead_at_least, LEAST)
    yield from bars_fault(report, goal.barred)


def script_faults(script: pathlib.Path, goal: Goal) -> Iterator[str]:
    """What is wrong with a script."""
    layout, program = goal.layout or "plain", goal.program or ""
    answer = commands.moves(layout, program, script)
    if answer.report is None:
        yield f"no report: status {answer.status}"
        return
    yield from run_faults(answer.report, goal)
    if goal.rounds_at_most is not None:
        fault = round_fault(script, commands.check(layout), goal.rounds_at_most)
        yield from [fault] if fault else []


def shape_faults(layout: Layout, goal: Goal) -> Iterator[str]:
    """What is wrong with the parts of a layout."""
    yield from number_fault("the number of stages", layout.stages, goal.stages, EQUAL)
    yield from number_fault("the number of cells", layout.cells, goal.cells_at_most, MOST)
    for name, most in goal.units_at_most.items():
        yield from number_fault(f"the number of units for {name}", len(layout.units.get(name, ())), most, MOST)


def layout_faults(file: pathlib.Path, goal: Goal) -> Iterator[str]:
    """What is wrong with a layout."""
    try:
        yield from shape_faults(commands.check(file), goal)
    except Refused as refusal:
        yield str(refusal)


def first_fault(file: pathlib.Path, goal: Goal) -> Optional[str]:
    """The first thing that is wrong with a student's file; None where it meets the goal."""
    if not file.is_file():
        return f"{goal.file} is missing"
    faults = layout_faults(file, goal) if goal.is_of_layout else script_faults(file, goal)
    return next(faults, None)


def grade(files: Sequence[pathlib.Path], goals: Sequence[Goal]) -> Tuple[int, str]:
    """The points of these files, one for each goal, and the first thing that is wrong."""
    faults = [(goal, first_fault(file, goal)) for file, goal in zip(files, goals)]
    points = sum(goal.points for goal, fault in faults if fault is None)
    wrong = next((f"{goal.name}: {fault}" for goal, fault in faults if fault), "")
    return points, wrong
