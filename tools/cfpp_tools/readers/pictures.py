"""Pictures of the processor between two moves."""

from __future__ import annotations

import dataclasses
import re
from typing import Dict, Optional, Tuple

from .lines import ADDRESS, Lines, ReadFault

BINDING = rf"(?:x[0-9]{{2}}=(?:{ADDRESS}|\?)|-)"
RESULT = rf"x[0-9]{{2}}={ADDRESS}|turn {ADDRESS}|halt"
RESULT_FORM = re.compile(RESULT)
FETCH = re.compile(rf"fetch ({ADDRESS}|wait)")
LANE = re.compile(r"lane(?: -|(?: x[0-9]{2})+)")
CACHE = re.compile(rf"cache(?: -|(?: x[0-9]{{2}}={ADDRESS})+)")
STAGE = re.compile(r"stage ([1-9][0-9]*) (instruction|result|full|complete) \| (.*)")
INSTRUCTION = re.compile(
    rf"({ADDRESS}) (next|taken|wait|to:{ADDRESS}) (dead-out|dead|trap|exit|done|out|new)"
    rf" ({BINDING}) ({BINDING}) ({BINDING}) ({RESULT}|-)"
)
SIDING = re.compile(rf"siding ([0-7])((?: (?:-|{ADDRESS}\*?))+)")


@dataclasses.dataclass(frozen=True)
class Binding:
    """A register, and its value where it is known."""

    register: int
    value: Optional[int]


@dataclasses.dataclass(frozen=True)
class Result:
    """A result: a register with its value, a turn with its target, or a halt."""

    kind: str
    register: Optional[int] = None
    value: Optional[int] = None


@dataclasses.dataclass(frozen=True)
class Instruction:
    """An instruction in a stage: its address, guess and flag, its sources and destination, and what it has yet to send."""

    pc: int
    guess: str
    flag: str
    sources: Tuple[Optional[Binding], Optional[Binding]]
    destination: Optional[Binding]
    owes: Optional[Result]

    @property
    def is_dead(self) -> bool:
        return self.flag in ("dead", "dead-out")


@dataclasses.dataclass(frozen=True)
class Stage:
    """A stage that is not empty: its instruction, its result, and whether the two have met."""

    instruction: Optional[Instruction] = None
    result: Optional[Result] = None
    met: bool = False


@dataclasses.dataclass(frozen=True)
class Operation:
    """An operation in a cell of a siding: its instruction's address, and whether it has its answer."""

    pc: int
    answered: bool


Cells = Tuple[Optional[Operation], ...]


@dataclasses.dataclass
class Picture:
    """The processor between two moves. Stages and sidings that hold nothing have no entry; fetch is None where it waits,
    and the cache None where the layout has none."""

    fetch: Optional[int] = None
    lane: Tuple[int, ...] = ()
    cache: Optional[Tuple[Binding, ...]] = None
    stages: Dict[int, Stage] = dataclasses.field(default_factory=dict)
    sidings: Dict[int, Cells] = dataclasses.field(default_factory=dict)

    @property
    def is_empty(self) -> bool:
        """Whether no instruction, no result and no operation is in flight."""
        return not self.stages and not self.sidings


def read_binding(text: str) -> Optional[Binding]:
    """The binding of a text such as `x01=0000002a`, `x01=?` or `-`."""
    if text == "-":
        return None
    register, value = text[1:].split("=")
    return Binding(int(register), None if value == "?" else int(value, 16))


def read_result(text: str, line: int) -> Result:
    """The result of a text such as `x01=0000002a`, `turn 00010000` or `halt`."""
    if not RESULT_FORM.fullmatch(text):
        raise ReadFault(line, f"`{text}` is no result")
    if text == "halt":
        return Result("halt")
    if text.startswith("turn "):
        return Result("turn", value=int(text[5:], 16))
    return Result("value", int(text[1:3]), int(text[4:], 16))


def read_instruction(text: str, line: int) -> Instruction:
    """The instruction of a stage's line."""
    found = INSTRUCTION.fullmatch(text)
    if not found:
        raise ReadFault(line, f"`{text}` is not an instruction of a stage")
    pc, guess, flag, first, second, destination, owes = found.groups()
    sources = (read_binding(first), read_binding(second))
    owed = None if owes == "-" else read_result(owes, line)
    return Instruction(int(pc, 16), guess, flag, sources, read_binding(destination), owed)


def read_stage(state: str, text: str, line: int) -> Stage:
    """What a stage holds, by the word for its state and the rest of its line."""
    parts = text.split(" | ")
    if len(parts) != (2 if state in ("full", "complete") else 1):
        raise ReadFault(line, f"a stage that is `{state}` has other parts")
    result = read_result(parts[-1], line) if state != "instruction" else None
    instruction = read_instruction(parts[0], line) if state != "result" else None
    return Stage(instruction, result, state == "complete")


def read_cells(text: str) -> Cells:
    """The cells of a siding's line."""
    return tuple(None if cell == "-" else Operation(int(cell[:8], 16), cell.endswith("*")) for cell in text.split())


def read_stages(lines: Lines) -> Dict[int, Stage]:
    """The lines of stages, the highest first."""
    stages: Dict[int, Stage] = {}
    while (found := lines.take(STAGE)) is not None:
        number = int(found[1])
        if number >= min(stages, default=33):
            raise ReadFault(lines.at, f"stage {number} comes too late")
        stages[number] = read_stage(found[2], found[3], lines.at)
    return stages


def read_sidings(lines: Lines) -> Dict[int, Cells]:
    """The lines of sidings, ascending."""
    sidings: Dict[int, Cells] = {}
    while (found := lines.take(SIDING)) is not None:
        number = int(found[1])
        if number <= max(sidings, default=-1):
            raise ReadFault(lines.at, f"siding {number} comes too late")
        sidings[number] = read_cells(found[2])
    return sidings


def read_picture(lines: Lines) -> Picture:
    """The picture whose first line is the next one."""
    fetch = lines.need(FETCH, "line of fetch")[1]
    lane = lines.need(LANE, "line of the lane")[0].split()[1:]
    cache = lines.take(CACHE)
    kept = tuple(binding for text in cache[0].split()[1:] if (binding := read_binding(text))) if cache else None
    return Picture(
        None if fetch == "wait" else int(fetch, 16),
        () if lane == ["-"] else tuple(int(register[1:]) for register in lane),
        kept,
        read_stages(lines),
        read_sidings(lines),
    )
