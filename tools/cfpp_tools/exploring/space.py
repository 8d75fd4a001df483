"""A space of layouts: for each part of a layout its choices. A point of the space has one choice of each."""

from __future__ import annotations

import dataclasses
import itertools
import math
from typing import Any, Dict, Iterator, List, Sequence, Tuple

from ..command_line import Stop
from ..readers.layouts import CLASSES

# The place of the choice of each part.
Point = Tuple[int, ...]


@dataclasses.dataclass(frozen=True)
class Part:
    """A part of a layout: its key, such as ("units", "add") or ("siding", 0, "cells"), and its choices."""

    key: Tuple[Any, ...]
    choices: Sequence[Any]


def subsets(stages: Sequence[Any], most: int) -> List[List[Any]]:
    """All lists of one to this many of these stages."""
    return [list(found) for size in range(1, most + 1) for found in itertools.combinations(stages, size)]


def choices_of(where: str, value: Any) -> List[Any]:
    """The choices that a value of the file gives: a list of them, a range, or all subsets of some stages."""
    if isinstance(value, dict) and set(value) <= {"from", "to", "step"} and {"from", "to"} <= set(value):
        return list(range(value["from"], value["to"] + 1, value.get("step", 1)))
    if isinstance(value, dict) and set(value) == {"any", "most"}:
        return subsets(value["any"], value["most"])
    if isinstance(value, list) and value:
        return value
    raise Stop(f"{where}: a list, `from` and `to`, or `any` and `most` are wanted")


def part_of(value: Any, *key: Any) -> Part:
    """The part of this key, with the choices that the value gives."""
    return Part(key, choices_of(f"space, {' '.join(map(str, key))}", value))


def parts_of(table: Dict[str, Any]) -> Iterator[Part]:
    """The parts of a space, in the order in which a layout has them."""
    whole = {"cache": [False], **table}
    units = table.get("units", {})
    sidings = itertools.product(enumerate(table.get("siding", [])), ("launch", "recover", "cells"))
    yield from (part_of(whole.get(key), key) for key in ("stages", "lane", "cache"))
    yield from (part_of(units[name], "units", name) for name in CLASSES if name in units)
    yield from (part_of(siding.get(key), "siding", number, key) for (number, siding), key in sidings)


def stage_of(value: Any, stages: int) -> int:
    """A stage by its number, or counted from the top, as "top" or "top-1"."""
    if isinstance(value, str) and value.startswith("top"):
        return stages + int(value[3:] or 0)
    return int(value)


class Space:
    """The parts of a space, and the classes of its sidings."""

    def __init__(self, table: Dict[str, Any]) -> None:
        unknown = set(table) - {"stages", "lane", "cache", "units", "siding"}
        if unknown:
            raise Stop(f"space: unknown key `{sorted(unknown)[0]}`")
        self.parts = list(parts_of(table))
        self.classes = [list(siding["classes"]) for siding in table.get("siding", [])]
        self.size = math.prod(len(part.choices) for part in self.parts)

    def points(self) -> Iterator[Point]:
        """All points, in their order."""
        return itertools.product(*(range(len(part.choices)) for part in self.parts))

    def number(self, point: Point) -> int:
        """The place of a point in that order, from 0."""
        number = 0
        for part, choice in zip(self.parts, point):
            number = number * len(part.choices) + choice
        return number

    def neighbours(self, point: Point) -> Iterator[Point]:
        """The points that differ by one step in one part."""
        steps = itertools.product(range(len(point)), (-1, 1))
        for at, step in steps:
            if 0 <= point[at] + step < len(self.parts[at].choices):
                yield (*point[:at], point[at] + step, *point[at + 1 :])

    def text(self, point: Point) -> str:
        """The layout of a point, as a file has it."""
        chosen = {part.key: part.choices[choice] for part, choice in zip(self.parts, point)}
        stages, cache = chosen["stages",], chosen["cache",]
        units = {key[1]: value for key, value in chosen.items() if key[0] == "units"}
        is_new = cache or any(name in ("mul", "div") for name in (*units, *sum(self.classes, [])))
        lines = [f"format = {2 if is_new else 1}", f"stages = {stages}", f"lane = {chosen['lane',]}"]
        lines += [f"cache = {'true' if cache else 'false'}"] if is_new else []
        lines += ["", "[units]", *(unit_line(name, listed, stages) for name, listed in units.items())]
        for number, classes in enumerate(self.classes):
            launch, recover = (stage_of(chosen["siding", number, key], stages) for key in ("launch", "recover"))
            lines += siding_lines(classes, launch, recover, chosen["siding", number, "cells"])
        return "".join(f"{line}\n" for line in lines)


def unit_line(name: str, listed: Sequence[Any], stages: int) -> str:
    """The line of the units of a class."""
    return f"{name} = {sorted({stage_of(stage, stages) for stage in listed})}"


def siding_lines(classes: Sequence[str], launch: int, recover: int, cells: int) -> List[str]:
    """The lines of a siding."""
    names = ", ".join(f'"{name}"' for name in classes)
    return ["", "[[siding]]", f"classes = [{names}]", f"launch = {launch}", f"recover = {recover}", f"cells = {cells}"]
