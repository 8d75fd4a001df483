"""Writes the trace of a run for other tools.

    cfpp run LAYOUT PROGRAM --show moves 2>TRACE
    cfpp time DELAYS PROGRAM LAYOUT .. --show moves 2>TRACE
    tools/trace FORMAT LAYOUT PROGRAM TRACE [--input FILE] >WRITTEN

FORMAT is one of

    script    the moves alone, to be edited and given to `cfpp run --script`
    csv       a table with a row for each move
    vcd       waves, for GTKWave and whatever else reads VCD
    gtkw      what GTKWave is to show of them: `gtkwave run.vcd run.gtkw`
    konata    a row for each instruction, for Konata (Kanata 0004)
    dot       which move had to wait for which, for Graphviz, which draws a few hundred moves in seconds

Without times a move takes one tick, one after another. Of a report of `time`, which may have several layouts, it is the run on
LAYOUT, in ticks: waves have a tick as a nanosecond, a cycle of Konata is a tick, and the table has the ticks at which each move
starts and finishes. The moves come in the order in which they finish.

The trace is checked first, so that what is written is of a real run: by `cfpp conform`, at any length, or with FILE, what the
guest read in that run, by `cfpp audit`, up to 16 MiB; the moves of a timed run by `cfpp run --script`, and that each starts when
those that it had to wait for have finished. The texts of the instructions are those that `cfpp list` gives, of the program as it
was loaded. A trace that is not one of a run, or cannot be read, is refused with a reason.
"""

from __future__ import annotations

import os
import sys
from typing import Sequence

from .. import command_line
from ..command_line import Stop
from ..readers.lines import ReadFault
from ..tracing import kanata, script, table, waits, waves
from ..tracing.conforming import WrongTrace
from ..tracing.trace import trace_of

WRITERS = {
    "script": script.write,
    "csv": table.write,
    "vcd": waves.write,
    "gtkw": waves.write_save,
    "konata": kanata.write,
    "dot": waits.write,
}


def main(given: Sequence[str]) -> None:
    parser = command_line.parser("tools/trace", __doc__)
    parser.add_argument("format", choices=WRITERS)
    parser.add_argument("layout", metavar="LAYOUT")
    parser.add_argument("program", metavar="PROGRAM")
    parser.add_argument("trace", metavar="TRACE")
    parser.add_argument("--input", default=os.devnull, metavar="FILE")
    arguments = parser.parse_args(given)
    try:
        lines = WRITERS[arguments.format](
            trace_of(arguments.layout, arguments.program, arguments.trace, arguments.input)
        )
    except (ReadFault, WrongTrace) as fault:
        raise Stop(f"{arguments.trace}: {fault}") from fault
    sys.stdout.writelines(f"{line}\n" for line in lines)
