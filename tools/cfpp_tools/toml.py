"""Reads TOML files: by the standard library, or before Python 3.11 by tomli, which has the same functions."""

from __future__ import annotations

import importlib
import sys
from typing import Any, Dict, Iterable

from .command_line import Stop
from .program import Name


def parser() -> Any:
    """The module that reads TOML."""
    name = "tomllib" if sys.version_info >= (3, 11) else "tomli"
    try:
        return importlib.import_module(name)
    except ImportError as missing:
        raise Stop("Python before 3.11 needs tomli to read TOML: pip install tomli") from missing


def read_toml(name: Name) -> Dict[str, Any]:
    """The top table of a file."""
    tomllib = parser()
    with open(name, "rb") as file:
        try:
            return dict(tomllib.load(file))
        except tomllib.TOMLDecodeError as fault:
            raise Stop(f"{name}: {fault}") from fault


def only(where: str, table: Dict[str, Any], keys: Iterable[str]) -> None:
    """A table has no other keys than these."""
    unknown = sorted(set(table) - set(keys))
    if unknown:
        raise Stop(f"{where}: unknown key `{unknown[0]}`")
