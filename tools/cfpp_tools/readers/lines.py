"""The lines of a text, read from the first on."""

from __future__ import annotations

import re
from typing import Optional, Pattern

ADDRESS = "[0-9a-f]{8}"


class ReadFault(Exception):
    """A text that has not the form that it should have: the line number, from 1, and the reason."""

    def __init__(self, line: int, reason: str) -> None:
        super().__init__(f"line {line}: {reason}")
        self.line = line
        self.reason = reason


class Lines:
    """The lines of a text, and which one is read next. Each line ends with a line feed, the last one too."""

    def __init__(self, text: str) -> None:
        self.lines = text.split("\n")
        self.at = 0
        if self.lines.pop() != "":
            raise ReadFault(len(self.lines) + 1, "the line has no end")

    @property
    def number(self) -> int:
        """The number of the next line."""
        return self.at + 1

    def peek(self) -> Optional[str]:
        """The next line, or None at the end."""
        return self.lines[self.at] if self.at < len(self.lines) else None

    def take(self, form: Pattern[str]) -> Optional[re.Match[str]]:
        """The parts of the next line where it has the form; it is then read."""
        line = self.peek()
        found = form.fullmatch(line) if line is not None else None
        self.at += found is not None
        return found

    def need(self, form: Pattern[str], what: str) -> re.Match[str]:
        """The parts of the next line, which must have the form."""
        found = self.take(form)
        if found is None:
            raise self.fault(f"no {what}")
        return found

    def fault(self, reason: str) -> ReadFault:
        """The refusal of the next line."""
        line = self.peek()
        return ReadFault(self.number, f"{reason}, but {'the end' if line is None else f'`{line[:60]}`'}")

    def end(self) -> None:
        """Nothing may follow."""
        if self.peek() is not None:
            raise self.fault("no end")
