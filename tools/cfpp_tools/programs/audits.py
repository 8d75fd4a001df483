"""Changes each byte of a trace, and cuts it after each byte: `cfpp audit` must name the line.

    tools/audits LAYOUT PROGRAM TRACE

TRACE is that of a run, without the report that closes it. Each of its bytes in turn has its lowest bit changed: the trace is
then not that of a run, and this is seen in the line of that byte, since no such change makes another move of the processor that
can be made there. Cut after a byte it agrees where a group of lines ends there, and is else cut in the line that has no end.
Prints each answer that differs, and how many were right.
"""

from __future__ import annotations

import pathlib
import tempfile
from typing import Iterator, Sequence, Tuple

from .. import command_line, commands
from ..program import Name
from ..readers.audits import AuditReport

# A case: what was done, the trace, and the answer that is wanted, with the reason where it counts.
Case = Tuple[str, bytes, str]


def answer(layout: Name, program: Name, trace: bytes) -> str:
    """What `audit` says of a trace."""
    with tempfile.NamedTemporaryFile(suffix=".trace") as file:
        file.write(trace)
        file.flush()
        report = commands.audit(layout, program, file.name).report
    return told(report or AuditReport())


def told(report: AuditReport) -> str:
    """A report, as one says it."""
    if report.ending:
        return report.ending.text
    return f"trace of {report.moves} moves"


def changed(trace: bytes) -> Iterator[Case]:
    """Each trace with one byte changed."""
    for place, byte in enumerate(trace):
        line = 1 + trace[:place].count(b"\n")
        text = trace[:place] + bytes([byte ^ 1]) + trace[place + 1 :]
        yield f"a byte of line {line} changed", text, f"bad trace line {line}: "


def is_whole(rest: bytes) -> bool:
    """Whether a group of lines ends where this is what follows."""
    return rest == b"" or rest.startswith(b"move ")


def cut(trace: bytes) -> Iterator[Case]:
    """Each prefix of a trace."""
    for place in range(len(trace) + 1):
        prefix = trace[:place]
        ends = prefix == b"" or prefix.endswith(b"\n")
        moves = sum(line.startswith(b"move ") for line in prefix.split(b"\n"))
        agrees = ends and is_whole(trace[place:])
        wanted = f"trace of {moves} moves" if agrees else f"bad trace line {1 + prefix.count(bytes([10]))}: Cut"
        yield f"cut to {place} bytes", prefix, wanted


def is_right(case: Case, given: str) -> bool:
    """Whether an answer is that of the case; of a changed byte any reason is right."""
    wanted = case[2]
    return given.startswith(wanted) if wanted.endswith(": ") else given == wanted


def main(given: Sequence[str]) -> int:
    parser = command_line.parser("tools/audits", __doc__)
    for name in ("layout", "program", "trace"):
        parser.add_argument(name, metavar=name.upper())
    arguments = parser.parse_args(given)
    trace = pathlib.Path(arguments.trace).read_bytes()
    cases = [*changed(trace), *cut(trace)]
    said = [(case, answer(arguments.layout, arguments.program, case[1])) for case in cases]
    wrong = [f"{case[0]}: {given}" for case, given in said if not is_right(case, given)]
    print("\n".join([*wrong, f"{len(cases) - len(wrong)} right, {len(wrong)} wrong"]))
    return int(bool(wrong))
