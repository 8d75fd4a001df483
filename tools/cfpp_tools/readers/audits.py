"""The answer of `audit`."""

from __future__ import annotations

import dataclasses
import re
from typing import Optional

from .endings import Ending, take_ending
from .lines import Lines

AGREES = re.compile(r"trace of ([0-9]+) moves")


@dataclasses.dataclass(frozen=True)
class AuditReport:
    """Of how many moves the trace is, where it is that of a run; else how the call ended."""

    moves: Optional[int] = None
    ending: Optional[Ending] = None


def read_audit(lines: Lines) -> AuditReport:
    """The report, which is one line."""
    found = lines.take(AGREES)
    report = AuditReport(int(found[1])) if found else AuditReport(ending=take_ending(lines))
    lines.end()
    return report
