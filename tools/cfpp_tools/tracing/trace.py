"""A trace, read and checked: what the writers of the other formats begin with."""

from __future__ import annotations

import dataclasses
import os
import pathlib
import tempfile
from typing import Dict, List, Optional, Sequence

from .. import commands
from ..program import Name
from ..readers.layouts import Layout
from ..readers.traces import Group, read_trace
from .conforming import WrongTrace, conform
from .following import Step, follow
from .timing import add_times, is_timed, timed_groups


@dataclasses.dataclass
class Trace:
    """What the writers read: the layout, the texts of instructions by address, and the steps, in the order in which they finish;
    and whether they are those of a timed run."""

    layout: Layout
    texts: Dict[int, str]
    steps: List[Step]
    is_timed: bool = False


def audit(layout: Name, program: Name, text: str, given: Optional[Name]) -> None:
    """Has the program check that the trace is one of a run."""
    with tempfile.NamedTemporaryFile("w", suffix=".trace") as cut:
        cut.write(text)
        cut.flush()
        answer = commands.audit(layout, program, cut.name, given=given)
    if answer.status != 0:
        raise WrongTrace(answer.report.ending.text if answer.report and answer.report.ending else f"status {answer.status}")


def check(layout: Name, program: Name, text: str, groups: Sequence[Group], given: Optional[Name]) -> None:
    """The trace is that of a run. `conform` takes a log of any length, but gives its guest no input."""
    if given in (None, os.devnull) and commands.has("conform"):
        conform(layout, program, text, groups)
    else:
        audit(layout, program, text, given)


def steps_of(layout: Name, program: Name, text: str, given: Optional[Name]) -> List[Step]:
    """The steps of a trace or of a report of times, checked to be those of a run."""
    shape = commands.check(layout)
    if is_timed(text):
        made, groups = timed_groups(layout, program, text, given)
        steps = follow(groups, shape)
        add_times(steps, made, shape)
        return steps
    text, groups = read_trace(text)
    check(layout, program, text, groups, given)
    return follow(groups, shape)


def trace_of(layout: Name, program: Name, name: Name, given: Optional[Name] = None) -> Trace:
    """The trace of this name, or the report of times; `given` is what the guest of that run read."""
    text = pathlib.Path(name).read_bytes().decode("ascii", errors="replace")
    steps = steps_of(layout, program, text, given)
    texts = {address: listed.text for address, listed in commands.listing(program).items()}
    return Trace(commands.check(layout), texts, steps, is_timed(text))
