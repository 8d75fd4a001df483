"""A function for each command of the program, with a typed answer.

A new command is one function here, and one reader of its report in `readers/`; a new option is a parameter.
"""

from __future__ import annotations

import dataclasses
import os
import tempfile
from typing import Callable, Dict, Generic, Iterable, List, Optional, Sequence, Tuple, TypeVar

from .program import Called, Input, Name, call
from .readers.audits import AuditReport, read_audit
from .readers.conforms import ConformReport, read_conform
from .readers.endings import Ending, read_ending
from .readers.layouts import Layout, read_layout
from .readers.lines import Lines
from .readers.listings import Listed, read_listing
from .readers.orders import OrdersReport, read_orders
from .readers.runs import RunReport, read_run
from .readers.sessions import SessionReport, read_session
from .readers.times import TimesReport, read_times

Report = TypeVar("Report")


@dataclasses.dataclass(frozen=True)
class Answer(Generic[Report]):
    """A call that ended: its status, what was written to the output, and what the report says. The report is None where the
    program wrote none."""

    status: int
    output: bytes
    report: Optional[Report]


class Refused(Exception):
    """A call that was to write a text, and was refused."""

    def __init__(self, command: str, called: Called) -> None:
        super().__init__(f"cfpp {command}: {called.report.strip() or f'status {called.status}'}")
        self.ending: Optional[Ending] = read_ending(called.report.rstrip("\n"))
        self.status = called.status


def answered(called: Called, read: Callable[[Lines], Report]) -> Answer[Report]:
    """The answer of a call, its report read so."""
    return Answer(called.status, called.output, read(Lines(called.report)) if called.report else None)


def written(arguments: Sequence[Name]) -> bytes:
    """The output of a call that is carried out."""
    called = call(arguments)
    if called.status != 0:
        raise Refused(str(arguments[0]), called)
    return called.output


def options(**values: object) -> List[str]:
    """The options that have a value."""
    given = ((f"--{name}", value) for name, value in values.items() if value is not None)
    return [part for name, value in given for part in (name, str(value))]


def machine(
    program: Name,
    *,
    limit: Optional[int] = None,
    every: Optional[int] = None,
    show: Optional[str] = None,
    mul: bool = False,
    given: Input = None,
) -> Answer[RunReport]:
    """Runs a program on the sequential machine."""
    called = call(["machine", program, *options(limit=limit, every=every, show=show), *["--mul"] * mul], given)
    return answered(called, read_run)


def run(
    layout: Name,
    program: Name,
    *,
    script: Optional[Name] = None,
    seed: Optional[int] = None,
    limit: Optional[int] = None,
    every: Optional[int] = None,
    show: Optional[str] = None,
    guess: Optional[str] = None,
    given: Input = None,
) -> Answer[RunReport]:
    """Runs a program on a layout: by a script, from a seed, or by the rule; the latter two under a guess rule."""
    asked = options(script=script, seed=seed, limit=limit, every=every, show=show, guess=guess)
    called = call(["run", layout, program, *asked], given)
    return answered(called, read_run)


def moves(
    layout: Name, program: Name, script: Name, *, limit: Optional[int] = None, every: Optional[int] = None
) -> Answer[RunReport]:
    """Makes the moves of a script, and lists which moves can be made then."""
    return answered(call(["moves", layout, program, "--script", script, *options(limit=limit, every=every)]), read_run)


def after(layout: Name, program: Name, made: Iterable[str]) -> Answer[RunReport]:
    """Makes these moves, and lists which moves can be made then."""
    with tempfile.NamedTemporaryFile("w", suffix=".script") as file:
        file.writelines(f"{move}\n" for move in made)
        file.flush()
        return moves(layout, program, file.name)


def rounds(
    layout: Name,
    program: Name,
    *,
    limit: Optional[int] = None,
    every: Optional[int] = None,
    guess: Optional[str] = None,
    given: Input = None,
) -> Answer[RunReport]:
    """Runs a program as a clocked processor would, in rounds."""
    return answered(call(["rounds", layout, program, *options(limit=limit, every=every, guess=guess)], given), read_run)


def time(
    delays: Name,
    program: Name,
    layouts: Sequence[Name],
    *,
    limit: Optional[int] = None,
    show: Optional[str] = None,
    seed: Optional[int] = None,
    guess: Optional[str] = None,
    given: Optional[Name] = None,
) -> Answer[TimesReport]:
    """How long a program takes on each of one to eight layouts, where its guest reads a file; the delays of ranges are drawn from the seed."""
    asked = options(limit=limit, show=show, seed=seed, guess=guess, input=given)
    return answered(call(["time", delays, program, *layouts, *asked]), read_times)


def audit(layout: Name, program: Name, trace: Name, *, given: Input = None) -> Answer[AuditReport]:
    """Checks that a trace is that of a run."""
    return answered(call(["audit", layout, program, trace], given), read_audit)


def help_text(command: Optional[str] = None) -> str:
    """What the program says of all its commands, or of one."""
    return written(["help", *([command] if command else [])]).decode()


def has(command: str) -> bool:
    """Whether the program has a command of this name."""
    return f"cfpp {command} " in help_text()


def conform(layout: Name, program: Name, log: Input, *, limit: Optional[int] = None) -> Answer[ConformReport]:
    """Says where the log of a circuit is not that of a run; the log is bytes, or the name of a file."""
    return answered(call(["conform", layout, program, *options(limit=limit)], log), read_conform)


def orders(
    layout: Name,
    program: Name,
    *,
    issues: Optional[int] = None,
    states: Optional[int] = None,
    without: Optional[str] = None,
    show: Optional[str] = None,
) -> Answer[OrdersReport]:
    """Searches all orders of the first moves of a program for one that is wrong, a rule of the table taken away or none."""
    asked = options(issues=issues, states=states, without=without, show=show)
    return answered(call(["orders", layout, program, *asked]), read_orders)


def debug(layout: Name, program: Name, commands: Iterable[str]) -> Answer[SessionReport]:
    """Has the debugger carry out these commands."""
    text = "".join(f"{command}\n" for command in commands)
    return answered(call(["debug", layout, program], text.encode()), read_session)


def check(layout: Name) -> Layout:
    """The layout of a file, or of a name that is built in."""
    return read_layout(Lines(written(["check", layout]).decode()))


def check_all(layouts: Sequence[Name]) -> Dict[str, Tuple[Optional[Layout], str]]:
    """Of each of many files the layout, or why it is none; several are read at once."""
    from concurrent.futures import ThreadPoolExecutor

    def one(layout: Name) -> Tuple[Optional[Layout], str]:
        try:
            return check(layout), ""
        except Refused as refusal:
            return None, str(refusal)

    with ThreadPoolExecutor(os.cpu_count() or 1) as pool:
        return dict(zip(map(str, layouts), pool.map(one, layouts)))


def assemble(source: Name) -> bytes:
    """The ELF file of an assembly text."""
    return written(["asm", source])


def listing(program: Name) -> Dict[int, Listed]:
    """The instructions of a program, by their addresses."""
    return read_listing(Lines(written(["list", program]).decode(errors="replace")))


def generate(number: int) -> str:
    """The text of the assembly program that is drawn from this number."""
    return written(["gen", str(number)]).decode()


def run_generated(number: int) -> Answer[RunReport]:
    """Runs the program that is drawn from this number, by moves that are drawn from it too."""
    return answered(call(["gen", str(number), "--run"]), read_run)


def version() -> str:
    """The version of the program, and the logic that the proofs were made with."""
    return written(["--version"]).decode().strip()
