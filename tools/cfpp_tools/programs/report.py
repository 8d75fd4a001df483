"""Writes a report of cfpp as JSON.

    cfpp run LAYOUT PROGRAM 2>REPORT
    tools/report [REPORT]

REPORT is any report of `cfpp`, standard input by default: that of a run with what was shown of it, of times, of an audit or of the
debugger. Each part is an object whose `type` names it as `cfpp_tools` does; addresses, words and values are numbers. A text that is
no report is refused with the line number.
"""

from __future__ import annotations

import json
import pathlib
import sys
from typing import Sequence

from .. import command_line
from ..readers.reports import plain, read_report


def main(given: Sequence[str]) -> None:
    parser = command_line.parser("tools/report", __doc__)
    parser.add_argument("report", metavar="REPORT", nargs="?")
    name = parser.parse_args(given).report
    text = pathlib.Path(name).read_bytes() if name else sys.stdin.buffer.read()
    json.dump(plain(read_report(text.decode(errors="replace"))), sys.stdout, indent=1)
    print()
