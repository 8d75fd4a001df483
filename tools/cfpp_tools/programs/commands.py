"""Runs the commands of the README and of docs/, and compares what they print and how they end.

    tools/commands
    tools/commands --also PROGRAM    has ./cfpp run this program too, which has to print the same and to end in the same way

Commands are in indented blocks whose first line begins with one of the words below; a command goes on up to the next line that
does. After it may be

    # prints FILE
    # prints "LINE"
    # prints FILE and ends with N
    # ends with N

Then what it writes to standard output, and after that to standard error, is the file's content or that line, and it ends with this status,
0 by default. The commands run one after another in a directory that has what the repository has, and where they may leave files. A command
that needs a tool which is not installed is skipped, with a line that says so.
"""

from __future__ import annotations

import collections
import dataclasses
import os
import pathlib
import re
import shutil
import subprocess
import tempfile
from typing import Counter, Iterator, List, Match, Optional, Sequence, Tuple

from .. import command_line
from ..program import TOP

FIRST_WORDS = {"./cfpp", "tools/annotate", "cmp", "for", "grep", "make"}
# By a word of a command the tool that it needs.
NEEDED = {"make": "riscv64-unknown-elf-gcc", "pv": "pv"}
# The gate is run by itself.
LEFT_OUT = {"rt ci"}
EXPECTED = re.compile(r'# (?:prints (?:"(?P<line>.*)"|(?P<file>\S+)))?(?: and )?(?:ends with (?P<status>\d+))?')


def blocks_of(page: pathlib.Path) -> Iterator[Tuple[int, List[str]]]:
    """The indented blocks of a page, blank lines between them, as lists of lines with the number of the first."""
    block: List[str] = []
    begin = 0
    for number, line in enumerate([*page.read_text().splitlines(), ""], 1):
        if line.startswith("    "):
            begin = begin if block else number
            block.append(line[4:])
        elif block:
            yield begin, block
            block = []


@dataclasses.dataclass
class Command:
    """A command of a page: the number of its first line, its text, and what is expected of it, if anything."""

    number: int
    text: str
    expected: Optional[Match[str]] = None


def commands_in(begin: int, block: List[str]) -> List[Command]:
    """The commands of a block."""
    found: List[Command] = []
    for number, line in enumerate(block, begin):
        if expected := EXPECTED.fullmatch(line):
            found[-1].expected = expected
        elif line.split()[0] in FIRST_WORDS and not line.startswith(" "):
            found.append(Command(number, line))
        elif line not in LEFT_OUT:
            found[-1].text += "\n" + line
    return found


def commands_of(page: pathlib.Path) -> Iterator[Command]:
    """The commands of a page."""
    for begin, block in blocks_of(page):
        if block[0].split()[0] in FIRST_WORDS:
            yield from commands_in(begin, block)


Done = subprocess.CompletedProcess[bytes]


@dataclasses.dataclass
class Place:
    """A directory in which commands run, and the program that ./cfpp runs there, if it is not the one that it finds."""

    folder: pathlib.Path
    program: Optional[pathlib.Path] = None

    def run(self, text: str) -> Done:
        """Runs a command. The directory's name, which `make` prints, is a dot in what came."""
        environment = {**os.environ, "CFPP_PROGRAM": str(self.program)} if self.program else None
        words = ["bash", "-c", text]
        done = subprocess.run(
            words, cwd=self.folder, stdin=subprocess.DEVNULL, capture_output=True, env=environment, check=False
        )
        done.stdout, done.stderr = (printed.replace(os.fsencode(self.folder), b".") for printed in (done.stdout, done.stderr))
        return done


def fault_of(command: Command, done: Done) -> Optional[str]:
    """What is wrong with how a command printed and ended; nothing if all is right."""
    expected = command.expected
    status = int(expected["status"] or 0) if expected else 0
    if done.returncode != status:
        return f"ends with {done.returncode}, and not with {status}"
    if expected and expected["file"]:
        wanted = (TOP / expected["file"]).read_bytes()
    elif expected and expected["line"]:
        wanted = f"{expected['line']}\n".encode()
    else:
        return None
    return None if done.stdout + done.stderr == wanted else "prints something else"


def prepare(folder: pathlib.Path) -> None:
    """Fills a directory with what the repository has."""
    shutil.copytree(TOP / "examples", folder / "examples")
    for name in ("cfpp", "tools", "docs"):
        (folder / name).symlink_to(TOP / name)


def differs(done: Done, other: Done) -> Optional[str]:
    """What differs in how two programs carried out a command; nothing if all is the same."""
    same = (done.returncode, done.stdout, done.stderr) == (other.returncode, other.stdout, other.stderr)
    return None if same else "is answered otherwise by the other program"


def tried(page: pathlib.Path, command: Command, places: List[Place]) -> str:
    """Runs a command in each place, and says what is wrong with it: whether it was skipped, failed or passed."""
    where = f"{page.relative_to(TOP)}, line {command.number}"
    lacking = [tool for word, tool in NEEDED.items() if word in command.text.split() and not shutil.which(tool)]
    if lacking:
        print(f"skipped, for lack of {lacking[0]}: {where}")
        return "skipped"
    first, *others = [place.run(command.text) for place in places]
    if fault := fault_of(command, first) or next(filter(None, (differs(first, other) for other in others)), None):
        print(f"failed: {where}: {fault}\n{command.text}")
        return "failed"
    return "passed"


def main(given: Sequence[str]) -> int:
    parser = command_line.parser("tools/commands", __doc__)
    parser.add_argument("--also", metavar="PROGRAM", type=pathlib.Path)
    also = parser.parse_args(given).also
    pages = [TOP / "README.md", *sorted((TOP / "docs").glob("*.md"))]
    with tempfile.TemporaryDirectory() as name, tempfile.TemporaryDirectory() as other:
        places = [Place(pathlib.Path(name)), *([Place(pathlib.Path(other), also.resolve())] if also else [])]
        for place in places:
            prepare(place.folder)
        count: Counter[str] = collections.Counter(tried(page, it, places) for page in pages for it in commands_of(page))
    print(f"{count['passed']} commands passed, {count['failed']} failed")
    return int(count["failed"] > 0)
