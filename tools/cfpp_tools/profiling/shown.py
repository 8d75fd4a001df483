"""What a report shows of a run, up to its closing lines, read in large blocks: a report may have millions of lines."""

from __future__ import annotations

import dataclasses
import re
from typing import BinaryIO, Iterator, List

from ..readers.endings import read_ending
from ..readers.lines import ReadFault

BLOCK = 1 << 20
RETIRED = re.compile(rb"retire [1-9][0-9]* ([0-9a-f]{8} [0-9a-f]{8}) [^\n]*\n")
MOVE = re.compile(
    rb"move ([1-9][0-9]*) ([a-z]+) ?([^\n]*)\n(?:retire [1-9][0-9]* ([0-9a-f]{8} [0-9a-f]{8}) [^\n]*\n)?"
    rb"((?:(?:fetch|lane|cache|stage|siding)[^\n]*\n)+)"
)


@dataclasses.dataclass
class Shown:
    """Some lines of a report, and how many come before them: the instructions that retired, by address and word with a space between, and
    of each move its number, its kind, what it names, and the picture after it."""

    before: int
    retired: List[bytes] = dataclasses.field(default_factory=list)
    moves: List["tuple[bytes, bytes, bytes, bytes]"] = dataclasses.field(default_factory=list)


def whole_lines(file: BinaryIO) -> Iterator[bytes]:
    """The file in blocks that end with a line each; a line that the file breaks off is left out."""
    rest = b""
    while block := file.read(BLOCK):
        begun, end, after = block.rpartition(b"\n")
        if end:
            yield rest + begun + end
            rest = after
        else:
            rest += after


def must_close(text: bytes, before: int) -> None:
    """The first line is a closing line. `before` lines come before it."""
    line = text.partition(b"\n")[0].decode(errors="replace")
    if read_ending(line) is None:
        raise ReadFault(before + 1, f"no line of a report: {line[:60]!r}")


def read_retired(text: bytes, before: int) -> Shown:
    """The lines of retired instructions; others follow at the end alone."""
    found = RETIRED.findall(text)
    if len(found) < text.count(b"\n"):
        end = 0
        while line := RETIRED.match(text, end):
            end = line.end()
        must_close(text[end:], before + text.count(b"\n", 0, end))
        found = RETIRED.findall(text[:end])
    return Shown(before, found)


def read_moves(text: bytes, before: int) -> Shown:
    """The moves; other lines follow at the end alone."""
    found = Shown(before)
    end = 0
    while move := MOVE.match(text, end):
        end = move.end()
        number, kind, named, retired, picture = move.groups()
        found.moves.append((number, kind, named, picture))
        if retired:
            found.retired.append(retired)
    if end < len(text):
        must_close(text[end:], before + text.count(b"\n", 0, end))
    return found


def shown(file: BinaryIO) -> Iterator[Shown]:
    """What the report shows, block by block. Of a report of moves the last one of a block is left to the next block, since its lines may
    go on there."""
    text, before = b"", 0
    for block in whole_lines(file):
        text += block
        if text.startswith(b"move "):
            cut = text.rfind(b"\nmove ") + 1
            yield read_moves(text[:cut], before)
        else:
            cut = len(text)
            found = read_retired(text, before)
            yield found
            if len(found.retired) < text.count(b"\n"):
                return
        before += text.count(b"\n", 0, cut)
        text = text[cut:]
    if text:
        yield read_moves(text, before)
