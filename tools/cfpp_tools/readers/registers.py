"""The 32 registers, in eight lines of four."""

from __future__ import annotations

import re
from typing import Tuple

from .lines import ADDRESS, Lines

Registers = Tuple[int, ...]

FORMS = [
    re.compile(" ".join(f"x{register:02}=({ADDRESS})" for register in range(first, first + 4))) for first in range(0, 32, 4)
]


def read_registers(lines: Lines) -> Registers:
    """The values of x0 to x31."""
    parts = [lines.need(form, "line of registers").groups() for form in FORMS]
    return tuple(int(value, 16) for values in parts for value in values)
