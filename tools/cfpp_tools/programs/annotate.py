"""Puts the text of each instruction, and the nearest label at or below it, after the lines of a trace that name one.

    cfpp list PROGRAM >LISTING
    tools/annotate LISTING [TRACE]

LISTING is what `cfpp list` wrote for the program, TRACE the report of a run of it or the answers of the debugger, standard input
by default. Lines `retire ..`, and lines `stage ..` with an instruction, get `# TEXT (LABEL+OFFSET)` after them; all others are
written as they are. An instruction at an address that is not listed gets `# not listed`, one whose word has changed since,
`# not as listed`. A line that is not one of a listing, or not one of a report, ends the tool with its number.
"""

from __future__ import annotations

import re
import sys
from typing import Dict, Optional, Sequence

from .. import command_line
from ..command_line import Stop
from ..readers import endings, moves, pictures, registers, sessions, traces
from ..readers.lines import Lines, ReadFault
from ..readers.listings import Listed, read_listing
from ..readers.retirements import RETIREMENT

Listing = Dict[int, Listed]

# The lines of a report that name no instruction to look up.
OTHER = [
    traces.MOVE_LINE,
    *(pictures.FETCH, pictures.LANE, pictures.CACHE, pictures.SIDING),
    *(moves.CHOICE, re.compile("(?:retired|rounds|moves|meets|kills|dead) [0-9]+")),
    *registers.FORMS,
    *(form for form, _ in sessions.COMPILED),
    *(form for _, _, form in endings.COMPILED),
]


def note(listing: Listing, address: int, word: Optional[int] = None) -> str:
    """What is put after a line with the instruction at this address."""
    if address not in listing:
        return "not listed"
    listed = listing[address]
    if word not in (None, listed.word):
        return "not as listed"
    return f"{listed.text} ({listed.place})" if listed.place else listed.text


def annotated(listing: Listing, where: str, line: str) -> str:
    """The line with its note."""
    if retired := RETIREMENT.fullmatch(line):
        return f"{line}  # {note(listing, int(retired[2], 16), int(retired[3], 16))}"
    if (stage := pictures.STAGE.fullmatch(line)) and stage[2] != "result":
        return f"{line}  # {note(listing, int(stage[3][:8], 16))}"
    if stage or any(form.fullmatch(line) for form in OTHER):
        return line
    raise Stop(f"{where}: no line of a report: {line[:60]!r}")


def read(name: str) -> Listing:
    """The listing of a file."""
    with open(name, encoding="utf-8", errors="replace", newline="\n") as file:
        try:
            return read_listing(Lines(file.read()))
        except ReadFault as fault:
            raise Stop(f"{name}, {fault}") from fault


def main(given: Sequence[str]) -> None:
    parser = command_line.parser("tools/annotate", __doc__)
    parser.add_argument("listing", metavar="LISTING")
    parser.add_argument("trace", metavar="TRACE", nargs="?")
    arguments = parser.parse_args(given)
    listing = read(arguments.listing)
    trace = open(arguments.trace, encoding="utf-8", errors="replace") if arguments.trace else sys.stdin
    for number, line in enumerate(trace, 1):
        print(annotated(listing, f"{arguments.trace or 'standard input'}, line {number}", line.rstrip("\n")))
