"""The moves of a timed run, as `cfpp time --show moves` reports them, with the pictures after them.

The program makes the moves again by a script, in the order in which they finish, and shows them. Moves that share no place may
change places, so that is a run too, and at each time it has made the moves that have finished by then."""

from __future__ import annotations

import tempfile
from typing import List, Optional, Sequence, Tuple

from .. import commands
from ..program import Name
from ..readers.layouts import Layout
from ..readers.lines import Lines
from ..readers.runs import RunReport
from ..readers.times import TIMED, TIMED_MOVE, Timed, TimedMove, read_times
from ..readers.traces import Group
from .conforming import LIMIT, WrongTrace
from .following import Step
from .waiting import waits


def is_timed(text: str) -> bool:
    """Whether a text begins as a report of `time` does, with its moves or without."""
    first = text.partition("\n")[0]
    return bool(TIMED_MOVE.fullmatch(first) or TIMED.fullmatch(first))


def run_on(layout: Name, text: str) -> Timed:
    """The run on this layout, of a report that may have several."""
    runs = {run.layout: run for run in read_times(Lines(text)).runs}
    if str(layout) not in runs:
        raise WrongTrace(f"it has no run on {layout}, but on {', '.join(runs)}")
    run = runs[str(layout)]
    if len(run.made) != run.moves:
        raise WrongTrace(f"it shows {len(run.made)} of {run.moves} moves: `cfpp time` shows them with --show moves")
    return run


def scripted(layout: Name, program: Name, made: Sequence[TimedMove], given: Optional[Name]) -> RunReport:
    """What the program shows of these moves."""
    with tempfile.NamedTemporaryFile("w", suffix=".script") as script:
        script.writelines(f"{timed.move.text}\n" for timed in made)
        script.flush()
        answer = commands.run(layout, program, script=script.name, limit=LIMIT, show="moves", given=given)
    if answer.report is None:
        raise WrongTrace(f"status {answer.status}")
    return answer.report


def timed_groups(
    layout: Name, program: Name, text: str, given: Optional[Name]
) -> Tuple[List[TimedMove], Tuple[Group, ...]]:
    """The moves in the order in which they finish, each with its group."""
    run = run_on(layout, text)
    made = sorted(run.made, key=lambda timed: (timed.finish, timed.number))
    report = scripted(layout, program, made, given)
    if report.ending.kind == "barred":
        raise WrongTrace(f"move {made[(report.ending.line or 1) - 1].number} cannot be made: {report.ending.reason}")
    wanted = f"script end after {run.moves} moves" if run.ending.kind == "limit" else run.ending.text
    if report.ending.text != wanted:
        raise WrongTrace(f"its moves end with `{report.ending.text}`, and not with `{wanted}`")
    return made, report.groups


def add_times(steps: Sequence[Step], made: Sequence[TimedMove], layout: Layout) -> None:
    """Gives each step its times. A move starts when all before it have finished that use a place of it."""
    for step, timed in zip(steps, made):
        step.timed = timed
    finishes = waits(steps, layout)[1]
    for step in steps:
        if finishes[step.number] != step.finish:
            raise WrongTrace(f"move {step.number} does not start when those that it has to wait for have finished")
