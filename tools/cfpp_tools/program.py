"""Where the program `cfpp` is found, and one call of it.

The variable CFPP of the environment names the program. Without it, inside the repository, it is the one that `./cfpp` keeps, which is
built first where a source is newer; elsewhere it is `cfpp` on the search path.
"""

from __future__ import annotations

import dataclasses
import functools
import os
import pathlib
import shutil
import subprocess
from typing import IO, Optional, Sequence, Union

Name = Union[str, "os.PathLike[str]"]
Input = Union[bytes, Name, None]

TOP = pathlib.Path(__file__).resolve().parents[2]


class NoProgram(Exception):
    """The program is not found, or cannot be built."""


@dataclasses.dataclass(frozen=True)
class Called:
    """A call that ended: its status, its output and its report."""

    status: int
    output: bytes
    report: str


def kept(wrapper: pathlib.Path) -> str:
    """The program that the repository's `./cfpp` keeps, after it was built where that had to be done."""
    made = subprocess.run([wrapper, "--version"], stdin=subprocess.DEVNULL, stdout=subprocess.DEVNULL, check=False)
    if made.returncode:
        raise NoProgram(f"{wrapper} could not be built or run: it ended with {made.returncode}")
    folder = wrapper.parent / ".cache"
    try:
        program = folder / (folder / "current").read_text().split()[0]
    except (OSError, IndexError):
        return str(wrapper)
    return str(program if os.access(program, os.X_OK) else wrapper)


@functools.lru_cache(maxsize=None)
def program() -> str:
    """The program's file."""
    named = os.environ.get("CFPP")
    if named:
        found = shutil.which(named)
        if not found:
            raise NoProgram(f"the variable CFPP names no program: {named}")
        return os.path.abspath(found)
    if (TOP / "cfpp").is_file() and (TOP / "crates.txt").is_file():
        return kept(TOP / "cfpp")
    found = shutil.which("cfpp")
    if not found:
        raise NoProgram("cfpp is not found: name it by the variable CFPP, or put it on the search path")
    return found


def call(arguments: Sequence[Name], given: Input = None, folder: Optional[Name] = None) -> Called:
    """Calls the program with these arguments. What its guest reads is given as bytes, or as the name of a file; by default it is
    nothing."""
    if isinstance(given, bytes):
        made = subprocess.run([program(), *arguments], input=given, capture_output=True, cwd=folder, check=False)
    else:
        with open(os.devnull if given is None else given, "rb") as source:
            made = called(arguments, source, folder)
    return Called(made.returncode, made.stdout, made.stderr.decode(errors="replace"))


def called(arguments: Sequence[Name], source: IO[bytes], folder: Optional[Name]) -> "subprocess.CompletedProcess[bytes]":
    """The call over an open file."""
    return subprocess.run([program(), *arguments], stdin=source, capture_output=True, cwd=folder, check=False)
