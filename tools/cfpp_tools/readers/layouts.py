"""The text of a layout, as `check` writes it."""

from __future__ import annotations

import dataclasses
import re
from typing import Dict, Pattern, Tuple

from .lines import Lines

CLASSES = "add logic shift compare branch jump memory mul div".split()
STAGES = r"\[([0-9]+(?:, [0-9]+)*)\]"
UNIT = re.compile(rf"({'|'.join(CLASSES)}) = {STAGES}")
NAMES = re.compile(r'classes = \[("[a-z]+"(?:, "[a-z]+")*)\]')
CACHE = re.compile("cache = (true|false)")
BLANK = re.compile("")


@dataclasses.dataclass(frozen=True)
class Siding:
    """A siding: the classes of its operations, the stages where it launches and recovers, and its cells."""

    classes: Tuple[str, ...]
    launch: int
    recover: int
    cells: int


@dataclasses.dataclass(frozen=True)
class Layout:
    """A layout: its stages, the places of the lane, whether registers are cached, the stages of each class's
    units, and the sidings."""

    stages: int
    lane: int
    cache: bool
    units: Dict[str, Tuple[int, ...]]
    sidings: Tuple[Siding, ...]

    @property
    def memory(self) -> int:
        """The number of the siding that leads to memory."""
        return next(k for k, siding in enumerate(self.sidings) if "memory" in siding.classes)

    @property
    def cells(self) -> int:
        """The cells of all sidings."""
        return sum(siding.cells for siding in self.sidings)


def exactly(text: str) -> Pattern[str]:
    """The form of a line that is this text."""
    return re.compile(re.escape(text))


def read_number(lines: Lines, key: str) -> int:
    """The number of the next line, which is that of this key."""
    return int(lines.need(re.compile(rf"{key} = ([0-9]+)"), f"line of `{key}`")[1])


def read_units(lines: Lines) -> Dict[str, Tuple[int, ...]]:
    """The lines of units."""
    units = {}
    while (found := lines.take(UNIT)) is not None:
        units[found[1]] = tuple(int(stage) for stage in found[2].split(", "))
    return units


def read_siding(lines: Lines) -> Siding:
    """The lines of a siding, after its head."""
    names = lines.need(NAMES, "line of `classes`")[1]
    classes = tuple(name.strip('"') for name in names.split(", "))
    return Siding(classes, *(read_number(lines, key) for key in ("launch", "recover", "cells")))


def read_sidings(lines: Lines) -> Tuple[Siding, ...]:
    """The sidings, each after a blank line and its head."""
    sidings = []
    while lines.take(BLANK):
        lines.need(exactly("[[siding]]"), "siding")
        sidings.append(read_siding(lines))
    return tuple(sidings)


def read_layout(lines: Lines) -> Layout:
    """The layout from its first line to its last."""
    has_cache_line = read_number(lines, "format") == 2
    stages, lane = read_number(lines, "stages"), read_number(lines, "lane")
    cache = has_cache_line and lines.need(CACHE, "line of `cache`")[1] == "true"
    lines.need(BLANK, "blank line")
    lines.need(exactly("[units]"), "table of units")
    layout = Layout(stages, lane, cache, read_units(lines), read_sidings(lines))
    lines.end()
    return layout
