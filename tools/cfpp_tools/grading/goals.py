"""What must hold of a student's file, as a TOML file of goals says it."""

from __future__ import annotations

import dataclasses
import pathlib
import re
from typing import Any, Dict, List, Optional

from ..command_line import Stop
from ..program import Name
from ..toml import only, read_toml


@dataclasses.dataclass(frozen=True)
class Goal:
    """One goal: the student's file, what it is worth, and what must hold. Of a script: the layout and the program that it is run on, and
    what must hold at its end. Of a layout, a file that ends in .toml: its parts. What is None is not asked. `answer` is a file that
    meets the goal."""

    name: str
    file: str
    points: int = 1
    answer: Optional[str] = None
    # Of a script.
    layout: Optional[str] = None
    program: Optional[str] = None
    ending: str = "script end"
    retired: Optional[int] = None
    registers: Dict[str, int] = dataclasses.field(default_factory=dict)
    empty: Optional[bool] = None
    fetch: Optional[int] = None
    moves_at_most: Optional[int] = None
    kills_at_least: Optional[int] = None
    dead_at_least: Optional[int] = None
    barred: Dict[str, str] = dataclasses.field(default_factory=dict)
    rounds_at_most: Optional[int] = None
    # Of a layout.
    stages: Optional[int] = None
    units_at_most: Dict[str, int] = dataclasses.field(default_factory=dict)
    cells_at_most: Optional[int] = None

    @property
    def is_of_layout(self) -> bool:
        return self.file.endswith(".toml")


KEYS = [field.name for field in dataclasses.fields(Goal)]
NUMBERS = {"points", "retired", "fetch", "stages"} | {key for key in KEYS if key.endswith(("_most", "_least"))} - {"units_at_most"}
TABLES = {"registers": int, "units_at_most": int, "barred": str}
REGISTER = re.compile("x[0-2]?[0-9]|x3[01]")
FILES = ("answer", "layout", "program")


def placed(table: Dict[str, Any], directory: pathlib.Path) -> Dict[str, Any]:
    """The table with the names of files as seen from the directory of the goals; `plain` is a layout that is built in."""
    named = {key: str(directory / table[key]) for key in FILES if key in table and table[key] != "plain"}
    return {**table, **named}


def has_type(key: str, value: Any) -> bool:
    """Whether a key's value is of the type that it should have."""
    if key in TABLES:
        return isinstance(value, dict) and all(isinstance(part, TABLES[key]) for part in value.values())
    if key in NUMBERS:
        return isinstance(value, int) and not isinstance(value, bool)
    return isinstance(value, bool if key == "empty" else str)


def check_types(where: str, table: Dict[str, Any]) -> None:
    """All values have their types, and registers their names."""
    wrong = next((key for key, value in table.items() if not has_type(key, value)), None)
    if wrong:
        raise Stop(f"{where}: `{wrong}` has a value of a wrong type")
    unnamed = next((name for name in table.get("registers", {}) if not REGISTER.fullmatch(name)), None)
    if unnamed:
        raise Stop(f"{where}: `{unnamed}` is not a register: they are x0 to x31")


def read_goal(where: str, table: Dict[str, Any], directory: pathlib.Path) -> Goal:
    """The goal of a table."""
    only(where, table, KEYS)
    check_types(where, table)
    if "name" not in table or "file" not in table:
        raise Stop(f"{where}: it needs `name` and `file`")
    goal = Goal(**placed(table, directory))
    if not goal.is_of_layout and (goal.layout is None or goal.program is None):
        raise Stop(f"{where}: a script needs `layout` and `program`")
    return goal


def read_goals(name: Name) -> List[Goal]:
    """The goals of a file."""
    table = read_toml(name)
    only(str(name), table, ("goal",))
    directory = pathlib.Path(name).parent
    goals = [read_goal(f"{name}, goal {at}", goal, directory) for at, goal in enumerate(table.get("goal", []), 1)]
    if not goals:
        raise Stop(f"{name}: it has no [[goal]]")
    return goals
