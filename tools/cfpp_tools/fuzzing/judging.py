"""What must hold of a call of the program, whatever its files are."""

from __future__ import annotations

import dataclasses
from typing import Callable, Dict, Iterator, List, Optional

from ..readers.audits import AuditReport, read_audit
from ..readers.conforms import ConformReport, read_conform
from ..readers.endings import REFUSALS, Ending, read_ending
from ..readers.lines import Lines, ReadFault
from ..readers.orders import OrdersReport, read_orders
from ..readers.reports import Report
from ..readers.runs import RunReport, read_run
from ..readers.sessions import SessionReport, read_session
from ..readers.times import TimesReport, read_times
from ..readers.traces import read_trace

MEMORY = 200 << 20
SECONDS = 20

# The name of the file with a trace as it was recorded.
RECORDED = "recorded"

# The endings whose line is alone in the report of any command.
ALONE = REFUSALS | {"write fault"}


@dataclasses.dataclass
class Call:
    """A call: its arguments, whether it is on a trace as it was recorded, and how it went. The status is None where it did not end, and
    negative where a signal ended it."""

    arguments: List[str]
    status: Optional[int] = None
    memory: int = 0
    report: str = ""
    output_size: int = 0
    is_recorded: bool = False

    @property
    def command(self) -> str:
        return self.arguments[0] if self.arguments else ""


def refusal(call: Call) -> Optional[Ending]:
    """The ending of a call that was refused. What it was to do has not begun, so that it wrote nothing to the output, but where
    the output itself failed."""
    ending = read_ending(call.report[:-1]) if call.report.endswith("\n") else None
    if ending is None or ending.status != call.status:
        return None
    is_script = ending.kind == "bad script" and ending.reason == "TooLong"
    is_file = ending.kind == "read fault" and ending.what != "input"
    return ending if ending.kind in ALONE or is_script or is_file else None


def is_closed(report: Report, call: Call) -> bool:
    """Whether a run's report has the parts that its command writes, and its ending the status."""
    if not isinstance(report, RunReport) or report.ending.status != call.status or report.registers is None:
        return False
    shows = bool(report.groups or report.retirements)
    if call.command == "machine":
        return report.tally is None and report.rounds is None and not report.groups
    if report.picture is None or (shows and call.command not in ("run", "machine")):
        return False
    return (report.rounds is not None) == (call.command == "rounds") and (call.command == "moves" or not report.choices)


def is_timed(report: Report, call: Call) -> bool:
    """Whether all layouts were timed, and reported as the call wants it."""
    if not isinstance(report, TimesReport) or report.least is None or call.status != 0:
        return False
    shown = [len(run.made) == (run.moves if "moves" in call.arguments else 0) for run in report.runs]
    return all(shown) and all((run.sites is not None) == ("sites" in call.arguments) for run in report.runs)


def is_audited(report: Report, call: Call) -> bool:
    return isinstance(report, AuditReport) and report.moves is not None and call.status == 0


def is_session(report: Report, call: Call) -> bool:
    """Whether a session ended as its status says."""
    return isinstance(report, SessionReport) and (report.ending.status if report.ending else 0) == call.status


def is_conformed(report: Report, call: Call) -> bool:
    """Whether a log was gone through, and the report closed: with moves only where one can be made, and a line that should be only where
    another is."""
    if not isinstance(report, ConformReport) or report.ending.status != call.status or report.picture is None:
        return False
    reason = report.ending.reason or ""
    lists_moves = report.ending.kind == "log end" or reason.startswith("Barred ")
    return (lists_moves or not report.choices) and (reason == "Differs" or report.expected is None)


def is_searched(report: Report, call: Call) -> bool:
    """Whether all orders were counted, or one of them is wrong, which none is where no rule is taken away."""
    if not isinstance(report, OrdersReport):
        return False
    if report.counts is not None:
        return call.status == 0
    return report.picture is not None and call.status == 136 and "--without" in call.arguments


@dataclasses.dataclass(frozen=True)
class Form:
    """How the report of a command is read, and what must hold of it where the call was not refused."""

    read: Callable[[Lines], Report]
    holds: Callable[[Report, Call], bool]


RUN = Form(read_run, is_closed)
FORMS: Dict[str, Form] = dict.fromkeys(("machine", "run", "rounds", "moves", "gen"), RUN)
FORMS.update(time=Form(read_times, is_timed), audit=Form(read_audit, is_audited), debug=Form(read_session, is_session))
FORMS.update(conform=Form(read_conform, is_conformed), orders=Form(read_orders, is_searched))


def report_fault(call: Call) -> Optional[str]:
    """What is wrong with the report of a call that ended."""
    if refusal(call):
        return None
    form = FORMS.get(call.command)
    if not call.report and call.status == 0 and (form is None or call.command in ("gen", "debug")):
        return None
    if form is None:
        return "it has a report"
    try:
        report = form.read(Lines(call.report))
    except ReadFault as fault:
        return f"its report is not read: {fault}"
    return None if form.holds(report, call) else f"its report has not the form of status {call.status}"


def trace_of(report: str) -> bytes:
    """The trace that a report begins with; of one that is not read, nothing."""
    try:
        return read_trace(report)[0].encode(errors="surrogateescape")
    except ReadFault:
        return b""


def faults(call: Call) -> Iterator[str]:
    """What is wrong with a call."""
    if call.status is None:
        yield f"it did not end within {SECONDS} seconds"
        return
    if call.status < 0:
        yield f"signal {-call.status} ended it"
    if call.memory >= MEMORY:
        yield f"it took {call.memory >> 20} MiB"
    if fault := report_fault(call):
        yield fault
    if refusal(call) and call.output_size and call.status != 129:
        yield "it was refused and wrote to the output"
    if call.is_recorded and call.status in (132, 134):
        yield "a trace that was recorded does not agree"
