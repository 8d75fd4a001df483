"""The moves of a trace alone: a script, to be edited and run again."""

from __future__ import annotations

from typing import List

from .trace import Trace


def write(trace: Trace) -> List[str]:
    """The lines of the script."""
    return [step.move.text for step in trace.steps]
