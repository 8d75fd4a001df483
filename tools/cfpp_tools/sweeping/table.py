"""A table of runs, to which several processes may add rows at once.

Rows are only ever appended, each by one process at a time, so that one which is killed leaves at most a prefix of its last row;
the next process takes that out. The rows are sorted when the last process ends, in a new file that takes the place of the old
one. Three bytes of the file TABLE.lock are locked: one by each process for as long as it may add rows, one for as long as a row is
added, and one by a process that looks whether it is the last, so that of two which end at the same time the second is.
"""

from __future__ import annotations

import contextlib
import csv
import fcntl
import os
import pathlib
from types import TracebackType
from typing import Dict, Iterator, List, Optional, Sequence, Type

from ..command_line import Stop
from ..program import Name
from .runs import COLUMNS, KINDS, Row, Run, read_rows, row_text, run_of

# The bytes of the lock.
RUNNING, ADDING, ENDING = 0, 1, 2


def head_of(line: str, name: Name) -> List[str]:
    """The columns that the first line of a table names."""
    columns: List[str] = next(csv.reader([line]), [])
    if columns not in (COLUMNS, [*COLUMNS, KINDS]):
        raise Stop(f"{name} is no table of runs")
    return columns


def rows_of(name: Name) -> List[Row]:
    """The rows of a table that no process adds to."""
    text = pathlib.Path(name).read_text()
    first, *lines = text[: text.rfind("\n") + 1].splitlines() or [""]
    return read_rows(lines, head_of(first, name))


class Table:
    """An open table, and the rows that it has."""

    def __init__(self, name: Name, kinds: bool = False) -> None:
        self.path = pathlib.Path(name)
        self.columns = [*COLUMNS, KINDS] if kinds else COLUMNS
        self.rows: Dict[Run, Row] = {}
        self.lock = os.open(f"{name}.lock", os.O_RDWR | os.O_CREAT, 0o666)
        fcntl.lockf(self.lock, fcntl.LOCK_SH, 1, RUNNING)
        self.file = os.open(self.path, os.O_RDWR | os.O_CREAT | os.O_APPEND, 0o666)
        self.seen = 0
        with self.holding(ADDING):
            self.begin(kinds)

    def __enter__(self) -> "Table":
        return self

    def __exit__(
        self, kind: Optional[Type[BaseException]], error: Optional[BaseException], trace: Optional[TracebackType]
    ) -> None:
        os.close(self.file)
        os.close(self.lock)

    @contextlib.contextmanager
    def holding(self, byte: int) -> Iterator[None]:
        """No other process holds this byte of the lock meanwhile."""
        fcntl.lockf(self.lock, fcntl.LOCK_EX, 1, byte)
        try:
            yield
        finally:
            fcntl.lockf(self.lock, fcntl.LOCK_UN, 1, byte)

    def begin(self, kinds: bool) -> None:
        """Reads the table, or writes the head of a new one."""
        lines = self.take_new_lines()
        if lines:
            self.columns = head_of(lines[0], self.path)
        else:
            self.append(row_text(dict(zip(self.columns, self.columns)), self.columns))
        if kinds and KINDS not in self.columns:
            raise Stop(f"{self.path} has no column {KINDS}: give another table")
        self.note(lines[1:])

    def take_new_lines(self) -> List[str]:
        """The lines that were added since the last look. A last one that was cut off is taken out."""
        size = os.fstat(self.file).st_size
        text = os.pread(self.file, size - self.seen, self.seen)
        whole = text[: text.rfind(b"\n") + 1]
        if whole != text:
            os.ftruncate(self.file, self.seen + len(whole))
        self.seen += len(whole)
        return whole.decode().splitlines()

    def note(self, lines: Sequence[str]) -> None:
        """Keeps the rows of these lines."""
        for row in read_rows(lines, self.columns):
            self.rows.setdefault(run_of(row), row)

    def append(self, line: str) -> None:
        """Writes a line behind the last one."""
        left = line.encode()
        while left:
            left = left[os.write(self.file, left) :]
        self.seen += len(line.encode())

    def add(self, row: Row) -> None:
        """Adds a row, unless another process has added that of the same run."""
        with self.holding(ADDING):
            self.note(self.take_new_lines())
            if run_of(row) not in self.rows:
                self.append(row_text(row, self.columns))
                self.rows[run_of(row)] = row

    @contextlib.contextmanager
    def alone(self) -> Iterator[bool]:
        """Whether no other process has the table open; if so, none opens it meanwhile."""
        try:
            fcntl.lockf(self.lock, fcntl.LOCK_EX | fcntl.LOCK_NB, 1, RUNNING)
        except OSError:
            yield False
            return
        try:
            yield True
        finally:
            fcntl.lockf(self.lock, fcntl.LOCK_SH, 1, RUNNING)

    def finish(self, runs: Sequence[Run]) -> None:
        """Puts the rows of these runs in their order and those of others after them, unless another process may still add rows: then
        that one does so. This process must add none afterwards."""
        with self.holding(ENDING):
            with self.alone() as is_alone:
                if is_alone:
                    self.note(self.take_new_lines())
                    self.arrange(runs)
            fcntl.lockf(self.lock, fcntl.LOCK_UN, 1, RUNNING)

    def arrange(self, runs: Sequence[Run]) -> None:
        """Puts the rows of these runs in their order and those of others after them."""
        place = {run: at for at, run in enumerate(runs)}
        rows = sorted(self.rows.values(), key=lambda row: place.get(run_of(row), len(runs)))
        head = dict(zip(self.columns, self.columns))
        self.replace("".join(row_text(row, self.columns) for row in [head, *rows]))

    def replace(self, text: str) -> None:
        """Puts a new file in the place of the old one."""
        new = self.path.with_name(f"{self.path.name}.new")
        with open(new, "w") as file:
            file.write(text)
            file.flush()
            os.fsync(file.fileno())
        os.replace(new, self.path)
        os.close(self.file)
        self.file = os.open(self.path, os.O_RDWR | os.O_APPEND)
        self.seen = len(text.encode())
