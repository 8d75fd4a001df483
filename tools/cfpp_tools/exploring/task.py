"""What is to be explored, as a TOML file says it: the space, the runs, the weights and the search."""

from __future__ import annotations

import dataclasses
import os
import pathlib
from typing import Any, Dict, List, Optional, Tuple

from ..command_line import Stop
from ..program import Name
from ..readers.layouts import CLASSES, Layout
from ..readers.moves import KINDS
from ..sweeping.schedules import schedules_of
from ..toml import only, read_toml
from .space import Space

MEASURES = ("cost", "time", "energy")


@dataclasses.dataclass(frozen=True)
class Task:
    """The space; the programs, the delays, their seeds, the guess rule and the limit of the runs; the weights; and how the search
    goes."""

    space: Space
    programs: List[str]
    delays: str
    seeds: List[int]
    guess: Optional[str]
    limit: int
    cost: Dict[str, Any]
    energy: Dict[str, float]
    most: int
    climbs: int
    seed: int
    front: Tuple[str, str]

    @property
    def schedules(self) -> List[str]:
        """The schedules of a program on a layout, one for each seed."""
        return schedules_of(False, False, [self.delays], self.seeds, [self.guess] if self.guess else [])

    def cost_of(self, layout: Layout) -> float:
        """The weights of its stages, the places of its lane, its cells, its cache and its units, in all."""
        weights = self.cost
        units = sum(len(stages) * weights.get("units", {}).get(name, 0) for name, stages in layout.units.items())
        plain = layout.stages * weights.get("stage", 0) + layout.lane * weights.get("lane", 0)
        return float(plain + layout.cells * weights.get("cell", 0) + layout.cache * weights.get("cache", 0) + units)

    def energy_of(self, kinds: Dict[str, int]) -> float:
        """The weights of all moves of a run, in all."""
        return float(sum(self.energy.get(kind, 0) * number for kind, number in kinds.items()))


def seen_from(folder: pathlib.Path, name: str) -> str:
    """A file that is named as seen from this directory, as seen from here."""
    return os.path.relpath(folder / name)


def needed(where: str, table: Dict[str, Any], key: str) -> Any:
    if key not in table:
        raise Stop(f"{where}: it needs `{key}`")
    return table[key]


def check_weights(name: Name, table: Dict[str, Any]) -> None:
    """The weights have keys that there are."""
    only(f"{name}, cost", table.get("cost", {}), ("stage", "lane", "cell", "cache", "units"))
    only(f"{name}, cost.units", table.get("cost", {}).get("units", {}), CLASSES)
    only(f"{name}, energy", table.get("energy", {}), KINDS)


def read_task(name: Name) -> Task:
    """The task of a file. Its files are named as seen from its directory."""
    table = read_toml(name)
    only(str(name), table, ("space", "runs", "cost", "energy", "search"))
    check_weights(name, table)
    runs, search = needed(str(name), table, "runs"), table.get("search", {})
    only(f"{name}, runs", runs, ("programs", "delays", "seeds", "guess", "limit"))
    only(f"{name}, search", search, ("most", "climbs", "seed", "front"))
    front = tuple(search.get("front", ("cost", "time")))
    if len(front) != 2 or not set(front) <= set(MEASURES):
        raise Stop(f"{name}, search: `front` has two of {', '.join(MEASURES)}")
    folder = pathlib.Path(name).parent
    return Task(
        Space(needed(str(name), table, "space")),
        [seen_from(folder, program) for program in needed(f"{name}, runs", runs, "programs")],
        seen_from(folder, needed(f"{name}, runs", runs, "delays")),
        runs.get("seeds", []),
        runs.get("guess"),
        runs.get("limit", 10_000_000),
        table.get("cost", {}),
        table.get("energy", {}),
        search.get("most", 2000),
        search.get("climbs", 8),
        search.get("seed", 1),
        (front[0], front[1]),
    )
