"""What `list` writes of a program: its labels, and the address, word and text of each instruction."""

from __future__ import annotations

import dataclasses
import re
from typing import Dict, List, Optional, Tuple

from .lines import ADDRESS, Lines

LISTED = re.compile(rf"({ADDRESS}) ({ADDRESS}) (.+)")
LABEL = re.compile(r"(.+):")


@dataclasses.dataclass(frozen=True)
class Listed:
    """An instruction: its word, its text, and the nearest label at or below it with the distance from there."""

    word: int
    text: str
    label: Optional[str] = None
    offset: int = 0

    @property
    def place(self) -> str:
        """The label and the distance, such as `main+0x4`, or nothing."""
        if self.label is None:
            return ""
        return f"{self.label}{f'+{self.offset:#x}' if self.offset else ''}"


def take_labels(lines: Lines) -> List[str]:
    """The labels up to the next instruction. A name such as $xrv32i gives the kind of what follows, and is no label of the
    program's."""
    found = []
    while not LISTED.fullmatch(lines.peek() or "") and (label := lines.take(LABEL)):
        found += [label[1]] if not label[1].startswith("$") else []
    return found


def read_listing(lines: Lines) -> Dict[int, Listed]:
    """The instructions by their addresses."""
    listing: Dict[int, Listed] = {}
    nearest: Tuple[Optional[str], int] = (None, 0)
    while True:
        labels = take_labels(lines)
        found = lines.take(LISTED)
        if found is None:
            break
        address = int(found[1], 16)
        nearest = (labels[0], address) if labels else nearest
        listing[address] = Listed(int(found[2], 16), found[3], nearest[0], address - nearest[1] if nearest[0] else 0)
    if lines.peek() is not None:
        raise lines.fault("neither a label nor an instruction")
    return listing
