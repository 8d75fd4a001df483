"""What a terminal shows beside the text of a report: the texts of instructions, what changed, and what is barred.

A line's own bytes stay as they are and in their order; between them come only the escape sequences for bold and for one colour, and
after them a note. The variable NO_COLOR of the environment, or TERM=dumb, leaves the escape sequences out.
"""

from __future__ import annotations

import os
import re
from typing import FrozenSet, List

from .programs.annotate import Listing, note
from .readers import pictures
from .readers.moves import BAR
from .readers.retirements import RETIREMENT

BOLD, RED, PLAIN = "\033[1m", "\033[31m", "\033[0m"
BARRED = re.compile(rf"barred .+ {BAR}|\? {BAR}")
PICTURE = (pictures.FETCH, pictures.LANE, pictures.CACHE, pictures.STAGE, pictures.SIDING)


def has_colours() -> bool:
    """Whether the terminal may get escape sequences."""
    return not os.environ.get("NO_COLOR") and os.environ.get("TERM", "dumb") != "dumb"


class Decorator:
    """Decorates the lines of reports, one after another; it keeps the last picture."""

    def __init__(self, listing: Listing, colours: bool) -> None:
        self.listing = listing
        self.colours = colours
        self.before: FrozenSet[str] = frozenset()
        self.now: List[str] = []

    def marked(self, line: str, mark: str) -> str:
        return f"{mark}{line}{PLAIN}" if self.colours else line

    def noted(self, line: str) -> str:
        """The note after a line that names an instruction, or nothing."""
        if retired := RETIREMENT.fullmatch(line):
            return f"  # {note(self.listing, int(retired[2], 16), int(retired[3], 16))}"
        stage = pictures.STAGE.fullmatch(line)
        if stage and stage[2] != "result":
            return f"  # {note(self.listing, int(stage[3][:8], 16))}"
        if (fetch := pictures.FETCH.fullmatch(line)) and fetch[1] != "wait":
            return f"  # {note(self.listing, int(fetch[1], 16))}"
        return ""

    def of_picture(self, line: str) -> str:
        """A line of a picture, bold where the picture before had no such line."""
        if line.startswith("fetch "):
            self.before, self.now = frozenset(self.now), []
        self.now.append(line)
        changed = bool(self.before) and line not in self.before
        return self.marked(line, BOLD) if changed else line

    def decorated(self, line: str) -> str:
        """The line as the terminal shows it."""
        notes = self.noted(line) if self.listing else ""
        if any(form.fullmatch(line) for form in PICTURE):
            return self.of_picture(line) + notes
        return self.marked(line, RED) + notes if BARRED.fullmatch(line) else line + notes
