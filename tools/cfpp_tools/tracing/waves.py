"""A trace as waves, in VCD, and what GTKWave is to show of them. A move takes a nanosecond; of a timed run a tick is one.

What a move changes changes when it finishes. In a timed run each stage and each cell says which move is in progress there. Where
nothing is in a stage or a cell its addresses and values are unknown (z), and its texts are `-`."""

from __future__ import annotations

import dataclasses
from typing import Callable, Dict, Iterator, List, Optional, Sequence, Tuple

from ..readers.layouts import Layout
from ..readers.pictures import Binding, Operation, Stage
from ..sites import Site
from .moments import Moment, moments
from .trace import Trace


def escaped(text: Optional[str]) -> str:
    """A text as one word: what replaces blanks is read back by GTKWave and vcd2fst."""
    return (text or "-").replace("\\", "\\\\").replace(" ", "\\040")


def bits(value: Optional[int], width: int) -> str:
    return f"b{'z' if value is None else format(value, f'0{width}b')} "


def word(value: Optional[int]) -> str:
    return bits(value, 32)


def bit(value: bool) -> str:
    return str(int(value))


def string(text: Optional[str]) -> str:
    return f"s{escaped(text)} "


@dataclasses.dataclass(frozen=True)
class Variable:
    """A variable: its name, its type in VCD, its width, and how a value of it is written."""

    name: str
    kind: str
    width: int
    written: Callable[..., str]


def address(name: str) -> Variable:
    return Variable(name, "wire", 32, word)


def truth(name: str) -> Variable:
    return Variable(name, "wire", 1, bit)


def text(name: str) -> Variable:
    return Variable(name, "string", 1, string)


Scopes = List[Tuple[str, List[Variable]]]

# The variables of a stage, a cell and the rest. The move is named where it is in progress in a timed run, and by the rest otherwise.
MOVE = text("move")
STAGE = [address("pc"), text("text"), text("flag"), text("result"), address("value"), truth("met")]
CELL = [address("pc"), truth("answered")]
WHOLE = [address("retired"), address("fetch"), text("lane")]
CACHE = [text("cache")]


def result_of(held: Optional[Stage]) -> Tuple[str, Optional[int]]:
    """The word for a stage's result, and its value or its address."""
    if not held or held.result is None:
        return "-", None
    result = held.result
    return result.kind if result.register is None else f"x{result.register:02}", result.value


def of_stage(held: Optional[Stage], texts: Dict[int, str]) -> List[object]:
    kind, value = result_of(held)
    met = bool(held and held.met)
    if not held or not held.instruction:
        return [None, "", "", kind, value, met]
    pc = held.instruction.pc
    return [pc, texts.get(pc, ""), held.instruction.flag, kind, value, met]


def of_cell(operation: Optional[Operation]) -> List[object]:
    return [operation.pc if operation else None, bool(operation and operation.answered)]


def of_cache(kept: Optional[Tuple[Binding, ...]]) -> str:
    return ",".join(f"x{binding.register:02}={binding.value or 0:08x}" for binding in kept or ())


def of_whole(moment: Moment) -> List[object]:
    picture = moment.picture
    return [moment.retired, picture.fetch, ",".join(f"x{register:02}" for register in picture.lane)]


def scopes(layout: Layout, is_timed: bool) -> Scopes:
    """The scopes in their order, each with its variables."""
    whole, place = ([], [MOVE]) if is_timed else ([MOVE], [])
    found = [("processor", whole + WHOLE + (CACHE if layout.cache else []))]
    found += [(f"stage{stage}", place + STAGE) for stage in range(layout.stages, 0, -1)]
    for k, siding in enumerate(layout.sidings):
        found += [(f"siding{k}_cell{c}", place + CELL) for c in range(siding.cells)]
    return found


def of_places(trace: Trace, moment: Moment) -> Iterator[Tuple[Site, List[object]]]:
    """The values of each stage and each cell."""
    layout, picture = trace.layout, moment.picture
    for stage in range(layout.stages, 0, -1):
        yield ("stage", stage), of_stage(picture.stages.get(stage), trace.texts)
    for k, siding in enumerate(layout.sidings):
        for c, operation in enumerate(picture.sidings.get(k, (None,) * siding.cells)):
            yield ("cell", k, c), of_cell(operation)


def values(trace: Trace, moment: Moment) -> List[object]:
    """The values of all variables, in the order of the scopes."""
    found: List[object] = [] if trace.is_timed else [moment.moves.get(None)]
    found += of_whole(moment)
    found += [of_cache(moment.picture.cache)] if trace.layout.cache else []
    for place, members in of_places(trace, moment):
        found += [moment.moves.get(place), *members] if trace.is_timed else members
    return found


def code(index: int) -> str:
    """The short name of a variable: printable characters but the blank."""
    digits = chr(33 + index % 94)
    while index >= 94:
        index = index // 94 - 1
        digits += chr(33 + index % 94)
    return digits


def scope(name: str, members: Sequence[Variable], first: int) -> List[str]:
    """The head's lines of a scope whose first variable has this number."""
    lines = [
        f"$var {member.kind} {member.width} {code(number)} {member.name} $end" for number, member in enumerate(members, first)
    ]
    return [f"$scope module {name} $end", *lines, "$upscope $end"]


def head(found: Scopes) -> List[str]:
    """The head of the file, which names all variables."""
    lines, first = ["$timescale 1 ns $end", "$scope module cfpp $end"], 0
    for name, members in found:
        lines += scope(name, members, first)
        first += len(members)
    return [*lines, "$upscope $end", "$enddefinitions $end"]


def write(trace: Trace) -> List[str]:
    """The lines of the waves: at each time what has changed."""
    found = scopes(trace.layout, trace.is_timed)
    flat = [member for _, members in found for member in members]
    lines, last, end = head(found), [""] * len(flat), 0
    for time, moment in moments(trace):
        lines.append(f"#{time}")
        new = values(trace, moment)
        written = [f"{member.written(value)}{code(number)}" for number, (member, value) in enumerate(zip(flat, new))]
        lines += [line for line, old in zip(written, last) if line != old]
        last, end = written, time
    return [*lines, f"#{end + 1}"]


def shown(name: str, member: Variable) -> List[str]:
    """How a save file shows a variable."""
    is_word = member.width == 32
    return ["@22" if is_word else "@28", f"cfpp.{name}.{member.name}{'[31:0]' if is_word else ''}"]


def write_save(trace: Trace) -> List[str]:
    """The lines of a save file for GTKWave: a group for each stage, and the sidings below."""
    lines = ["[timestart] 0", "[size] 1400 900", "[sst_expanded] 0"]
    for name, members in scopes(trace.layout, trace.is_timed):
        lines += ["@200", f"-{name}", *(line for member in members for line in shown(name, member))]
    return lines
