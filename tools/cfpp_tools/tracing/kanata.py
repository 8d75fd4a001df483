"""A trace in Kanata 0004, the text that Konata shows: a row for each instruction, a cycle for each tick.

The first lane of a row has the stages in which the instruction was, the second the cells of sidings in which its operation did.
A row begins when the issue starts; all else changes when a move finishes, so that a row ends with the leave and is as long as
its instruction took. An instruction that died is flushed where it leaves. An arrow goes to each instruction from those whose
values it took out of results, and none from the register file."""

from __future__ import annotations

from typing import Dict, Iterator, List, Optional, Tuple

from .following import Step, launched
from .trace import Trace


class Rows:
    """The lines of the file, each with its time, and what each row is doing."""

    def __init__(self, trace: Trace) -> None:
        self.trace = trace
        self.lines: List[Tuple[int, str]] = []
        self.doing: Dict[Tuple[int, int], str] = {}
        self.retired = 0

    def add(self, at: int, *fields: object) -> None:
        self.lines.append((at, "\t".join(str(field) for field in fields)))

    def begin(self, at: int, row: int, lane: int, name: Optional[str]) -> None:
        """The row's lane goes on with this stage or cell, or with nothing."""
        if (row, lane) in self.doing:
            self.add(at, "E", row, lane, self.doing.pop((row, lane)))
        if name:
            self.doing[row, lane] = name
            self.add(at, "S", row, lane, name)

    def issue(self, step: Step, pc: int, row: int) -> None:
        self.add(step.start, "I", row, row, 0)
        self.add(step.start, "L", row, 0, f"{pc:08x} {self.trace.texts.get(pc, '')}")
        self.begin(step.start, row, 0, "1")

    def leave(self, step: Step, row: int) -> None:
        self.begin(step.finish, row, 0, None)
        is_dead = step.event == "gone"
        self.retired += not is_dead
        self.add(step.finish, "R", row, self.retired, int(is_dead))

    def side(self, step: Step, row: int) -> None:
        """What the move did with the instruction's operation in a siding."""
        move = step.move
        if move.kind == "slide":
            self.begin(step.finish, row, 1, f"{move.siding}.{(move.cell or 0) + 1}")
        elif move.kind == "recover":
            self.begin(step.finish, row, 1, None)
        else:
            for siding in launched(step):
                self.begin(step.finish, row, 1, f"{siding}.0")

    def note(self, step: Step, row: int) -> None:
        """The move's line in what Konata shows of a row beside the pointer, and the values that came by it."""
        times = f" from {step.start} to {step.finish}" if self.trace.is_timed else ""
        self.add(step.finish, "L", row, 1, f"{step.number}{times} {step.move.text} {step.event}".rstrip() + "\\n")
        for supplier, _register in step.supplies:
            self.add(step.finish, "W", row, supplier.number - 1, 0)

    def act(self, step: Step, row: int) -> None:
        """What the move did with the instruction of this row."""
        self.note(step, row)
        move = step.move
        if move.kind == "climb":
            self.begin(step.finish, row, 0, str((move.stage or 0) + 1))
        elif move.kind in ("launch", "slide", "recover"):
            self.side(step, row)
        elif move.kind == "leave":
            self.leave(step, row)

    def step(self, step: Step) -> None:
        """What the file says of a move."""
        if step.instruction:
            row = step.instruction.number - 1
            if step.move.kind == "issue":
                self.issue(step, step.instruction.pc, row)
            self.act(step, row)


def in_time(lines: List[Tuple[int, str]]) -> Iterator[str]:
    """The lines in the order of their times, with the cycles between them."""
    now = 0
    for at, line in sorted(lines, key=lambda timed: timed[0]):
        if at > now:
            yield f"C\t{at - now}"
            now = at
        yield line


def write(trace: Trace) -> List[str]:
    """The lines of the file."""
    rows = Rows(trace)
    for step in trace.steps:
        rows.step(step)
    return ["Kanata\t0004", "C=\t0", *in_time(rows.lines), "C\t1"]
