"""Calls every command of the program on random and on changed files, and looks at what each call does.

    tools/fuzz [COUNT [SEED [DIRECTORY]]]

Each of COUNT cases (1,000) makes files of one kind from SEED (1) and its number: an ELF file, an image, a layout, a script, a
source, delays, a trace, a log, a debugger's commands or arguments. Half of them are changed files of this repository. Every command that
reads such a file is called on it. A call must end by itself, within 20 seconds and with less than 200 MiB; its status must be
one of the table in docs/ERRORS.md, its report have the form that is given there for it, and its output be empty where it was
refused; a trace that was just recorded must agree. The files of a case in which this does not hold stay in DIRECTORY (`.cache/fuzz`),
and are named.
"""

from __future__ import annotations

import collections
import pathlib
import random
import tempfile
from typing import Counter, Optional, Sequence

from .. import command_line
from ..fuzzing.calling import Caller
from ..fuzzing.cases import EXAMPLES, keep, try_case
from ..program import TOP, program


class Count:
    """How many calls there were, how they ended, and the most memory that one took."""

    def __init__(self) -> None:
        self.wrong = 0
        self.most = 0
        self.statuses: Counter[Optional[int]] = collections.Counter()

    def __str__(self) -> str:
        told = ", ".join(f"{status}: {times}" for status, times in sorted(self.statuses.items(), key=str))
        calls = sum(self.statuses.values())
        return f"{calls} calls, at most {self.most / (1 << 20):.1f} MiB, {self.wrong} wrong; statuses {told}"


def try_number(caller: Caller, number: int, seed: str, kept: pathlib.Path, count: Count) -> None:
    """Tries the case of this number, and says what is wrong in it."""
    for call, faults in try_case(caller, random.Random(f"{seed} {number}")):
        count.most = max(count.most, call.memory)
        count.statuses[call.status] += 1
        if faults:
            count.wrong += 1
            keep(caller, kept / f"{seed}-{number}")
            print(f"case {number} of seed {seed}: {' '.join(call.arguments)}: {'; '.join(faults)}")


def main(given: Sequence[str]) -> int:
    parser = command_line.parser("tools/fuzz", __doc__)
    parser.add_argument("count", metavar="COUNT", nargs="?", type=int, default=1000)
    parser.add_argument("seed", metavar="SEED", nargs="?", default="1")
    parser.add_argument("folder", metavar="DIRECTORY", nargs="?", type=pathlib.Path, default=TOP / ".cache" / "fuzz")
    arguments = parser.parse_args(given)
    if not EXAMPLES.is_dir():
        raise command_line.Stop("the examples of the repository are needed")
    count = Count()
    with tempfile.TemporaryDirectory() as folder:
        caller = Caller(program(), folder)
        for number in range(arguments.count):
            try_number(caller, number, arguments.seed, arguments.folder, count)
    print(f"{arguments.count} cases of seed {arguments.seed}, {count}")
    return int(count.wrong > 0)
