"""The answer of `conform`: where the log of a circuit is not that of a run, or how it ended."""

from __future__ import annotations

import dataclasses
import re
from typing import Optional, Tuple

from .endings import Ending, take_ending
from .lines import Lines
from .moves import Choice, read_choices
from .pictures import Picture, read_picture
from .registers import Registers, read_registers
from .tallies import Tally, read_count, read_tally

EXPECTED = re.compile(r"expected (.+)")


@dataclasses.dataclass(frozen=True)
class ConformReport:
    """How the log ended, which moves could be made then, and what the line that differs should have been. Where the call was
    refused the rest is None."""

    ending: Ending
    choices: Tuple[Choice, ...] = ()
    expected: Optional[str] = None
    retired: Optional[int] = None
    observed: Optional[int] = None
    tally: Optional[Tally] = None
    registers: Optional[Registers] = None
    picture: Optional[Picture] = None


def read_conform(lines: Lines) -> ConformReport:
    """The report from its first line to its last."""
    ending = take_ending(lines)
    choices = read_choices(lines)
    expected = lines.take(EXPECTED)
    if lines.peek() is None:
        return ConformReport(ending)
    retired, observed = read_count(lines, "retired"), read_count(lines, "observed")
    tally, registers, picture = read_tally(lines), read_registers(lines), read_picture(lines)
    lines.end()
    return ConformReport(ending, choices, expected[1] if expected else None, retired, observed, tally, registers, picture)
