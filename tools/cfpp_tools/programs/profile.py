"""Says where the instructions and the moves of a run went, by symbol.

    cfpp machine PROGRAM --show retired 2>REPORT
    tools/profile PROGRAM [REPORT] [--folded]

PROGRAM is the program's file, REPORT what `machine`, `run` or `rounds` wrote with --show retired or --show moves, standard input by
default. It may break off anywhere. The table has a row for each symbol, those with most first: how many instructions retired between it
and the next one, and with --show moves how many moves were made for the instructions there, those that died among them, and for the
results that they sent. `(register file)` has the moves of values that it sent. With --folded there is a line for each chain of calls, as
flamegraph.pl and speedscope read them, with the instructions that retired in it. Calls are jumps that leave the address to return to in x1
or x5; they end where a jump comes back to that address.
"""

from __future__ import annotations

import sys
from typing import BinaryIO, Counter, List, Sequence, Tuple

from .. import command_line
from ..command_line import Stop
from ..commands import listing
from ..profiling.calls import Calls
from ..profiling.counting import REGISTER_FILE, Counts
from ..profiling.shown import shown
from ..profiling.symbols import Symbols, ordered


def share(count: int, total: int) -> str:
    return f"{100 * count / total if total else 0:.1f}%"


def table(retired: Counter[str], moves: Counter[str]) -> List[str]:
    """The rows of both counts, under a head and over their sums."""
    sums = sum(retired.values()), sum(moves.values())
    rows = [("instructions", "share") + (("moves", "share", "a retired one") if sums[1] else ()) + ("symbol",)]
    rows += [row(symbol, retired[symbol], moves[symbol], sums) for symbol in ordered(moves or retired)]
    rows.append(row("(all)", *sums, sums))
    widths = [max(map(len, column)) for column in zip(*rows)]
    return ["  ".join([*(cell.rjust(width) for cell, width in zip(cells[:-1], widths)), cells[-1]]) for cells in rows]


def row(symbol: str, retired: int, moves: int, sums: Sequence[int]) -> Tuple[str, ...]:
    """The cells of a symbol."""
    cells: Tuple[str, ...] = (f"{retired:,}", share(retired, sums[0]))
    if sums[1]:
        cells += (f"{moves:,}", share(moves, sums[1]), f"{moves / retired:.1f}" if retired else "-")
    return (*cells, symbol)


def profile(file: BinaryIO, symbols: Symbols, is_folded: bool) -> List[str]:
    """The lines of the table, or of the chains of calls."""
    counts, calls = Counts(), Calls(symbols)
    for some in shown(file):
        if is_folded:
            calls.add(some.retired)
        else:
            counts.add(some)
    if is_folded:
        return list(calls.folded())
    if not counts.words and not counts.moves.number:
        raise Stop("the report shows no instruction and no move: it is to be of a call with --show retired or --show moves")
    return table(symbols.sums(counts.retired, {}), symbols.sums(counts.moves.counts, {REGISTER_FILE: "(register file)"}))


def main(given: Sequence[str]) -> None:
    parser = command_line.parser("tools/profile", __doc__)
    parser.add_argument("program", metavar="PROGRAM")
    parser.add_argument("report", metavar="REPORT", nargs="?")
    parser.add_argument("--folded", action="store_true")
    arguments = parser.parse_args(given)
    symbols = Symbols(listing(arguments.program))
    if arguments.report:
        with open(arguments.report, "rb") as file:
            lines = profile(file, symbols, arguments.folded)
    else:
        lines = profile(sys.stdin.buffer, symbols, arguments.folded)
    sys.stdout.writelines(f"{line}\n" for line in lines)
