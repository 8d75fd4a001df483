"""cfpp for Python: a function for each of its commands, with typed answers, and a reader for each text that it writes.

    import cfpp_tools
    answer = cfpp_tools.run("plain", "examples/sorted.bin", seed=1)
    answer.report.tally.moves

The program is found by `program.py`, the functions are in `commands.py`, and the readers in `readers/`.
"""

from .commands import (
    assemble,
    audit,
    check,
    conform,
    debug,
    generate,
    help_text,
    listing,
    machine,
    moves,
    orders,
    rounds,
    run,
    run_generated,
    time,
    version,
)
from .program import Called, NoProgram, call
from .readers.lines import Lines, ReadFault
from .readers.reports import read_report

__version__ = "0.9.0"

__all__ = [
    "Called",
    "Lines",
    "NoProgram",
    "ReadFault",
    "assemble",
    "audit",
    "call",
    "check",
    "conform",
    "debug",
    "generate",
    "help_text",
    "listing",
    "machine",
    "moves",
    "orders",
    "read_report",
    "rounds",
    "run",
    "run_generated",
    "time",
    "version",
]
