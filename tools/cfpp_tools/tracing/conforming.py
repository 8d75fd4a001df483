"""Has the program check a trace of any length, as the log of a circuit.

A trace is a log that shows everything: `cfpp conform` compares each of its lines with the state that the moves have reached. But
a log may leave out what it likes, and a trace may not, so what a trace says by having no line is added or checked here: a stage
or a siding that a picture does not show is empty, and an instruction retires by a move if and only if its line is there."""

from __future__ import annotations

import tempfile
from typing import Iterator, Sequence, Tuple

from .. import commands
from ..program import Name
from ..readers.layouts import Layout
from ..readers.lines import ReadFault
from ..readers.pictures import Picture
from ..readers.traces import Group

# The most that `--limit` takes.
LIMIT = 1_000_000_000


class WrongTrace(Exception):
    """A trace that is not that of a run."""


def empty_places(picture: Picture, layout: Layout) -> Iterator[str]:
    """The lines of what the picture does not show."""
    for stage in range(layout.stages, 0, -1):
        if stage not in picture.stages:
            yield f"stage {stage} empty"
    for number, siding in enumerate(layout.sidings):
        if number not in picture.sidings:
            yield f"siding {number}{' -' * siding.cells}"


def retires(before: Picture, group: Group, layout: Layout) -> bool:
    """Whether an instruction retires by this move: it leaves, is not dead, and does not end the program."""
    top = before.stages.get(layout.stages)
    return group.move.kind == "leave" and bool(top and top.instruction and top.instruction.flag == "done")


def check_lines(before: Picture, group: Group, layout: Layout) -> None:
    """The move has the lines that it must have, and no others."""
    if retires(before, group, layout) != (group.retirement is not None):
        raise ReadFault(group.line, "an instruction retires without its line, or the line is there without one")
    if (group.picture.cache is not None) != layout.cache:
        raise ReadFault(group.line, "the line of the cache is missing, or the layout has no cache")


def log_of(text: str, groups: Sequence[Group], layout: Layout) -> Iterator[Tuple[int, str]]:
    """The lines of the log, each with its line number in the trace. Lines that are added have that of the last line of their
    picture."""
    lines = text.splitlines()
    before = Picture()
    ends = [*(group.line - 1 for group in groups[1:]), len(lines)]
    for group, end in zip(groups, ends):
        check_lines(before, group, layout)
        yield from ((at + 1, lines[at]) for at in range(group.line - 1, end))
        yield from ((end, line) for line in empty_places(group.picture, layout))
        before = group.picture


def conform(layout: Name, program: Name, text: str, groups: Sequence[Group]) -> None:
    """The program finds nothing wrong in the log of the trace."""
    shape = commands.check(layout)
    with tempfile.NamedTemporaryFile("w", suffix=".log") as log:
        log.writelines(f"{line}\n" for _, line in log_of(text, groups, shape))
        log.flush()
        answer = commands.conform(layout, program, log.name, limit=LIMIT)
    ending = answer.report.ending if answer.report else None
    if ending is None:
        raise WrongTrace(f"status {answer.status}")
    if ending.kind == "bad log":
        at = next(at for number, (at, _) in enumerate(log_of(text, groups, shape), 1) if number == ending.line)
        raise WrongTrace(f"bad trace line {at}: {ending.reason}")
    if ending.kind not in ("exit", "trap", "log end"):
        raise WrongTrace(ending.text)
