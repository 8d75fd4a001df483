"""Runs many layouts, programs and schedules, and writes a table with a row for each run.

TABLE is a CSV file; its columns are

    layout,program,schedule,ending,retired,moves,meets,kills,dead,time,rounds

and with --kinds one more, the number of moves of each kind, which only `delays` gives. A schedule is `rule`, `seed N`, `rounds`
(the command `rounds`) or `delays FILE` (the command `time`), where `seed N` follows; with --guess it is followed by `guess RULE`.
Seeds draw the moves of `run`, or with --delays the delays of `time` from their ranges. A program with the file PROGRAM.input
beside it (its last suffix exchanged) reads that, but under `time`; the others read nothing. What a command does not count stays
empty. The rows come as the runs end, and are sorted by the lists after the last.

--means FILE writes another table, of all rows of TABLE, with a row for each layout, program and schedule whatever its seed: how
many runs there are, the means of their moves and of their time, each with its spread, which is how far the farthest run is from
the mean, as a part of it, and, with --kinds, how many instructions were issued for each that retired. Its columns are

    layout,program,schedule,runs,retired,moves,moves_spread,time,time_spread,issued

The rows that TABLE has already are not made again, so that a sweep which was interrupted or killed goes on where it stopped,
and one with more layouts adds their rows. Several sweeps may add to one table at the same time. TABLE.log says when, where and
for how many seconds each run was made. At the end a line on standard error names the rows of a program that did other work than
most: they ended otherwise, or retired another number of instructions, and cannot be compared with the others. Another line says
how many rows met the limit.

--slice K/M makes the K-th of M slices of the runs, as a task of an array of jobs does, into a table of its own. --join puts the
rows of tables into TABLE; with the lists of a sweep those that are still missing are made. Options after `--` go to GNU
parallel, which then makes the runs, as `-- --sshlogin one,two,:` on two other machines beside this one: they need this
repository in the same directory, with the program built, and the files under the same names.
"""

from __future__ import annotations

import argparse
import pathlib
import re
import sys
from typing import List, Sequence, Tuple

from .. import command_line
from ..program import call
from ..sweeping.comparing import remarks
from ..sweeping.means import means_text
from ..sweeping.runs import COLUMNS, KINDS, Run, make_row, row_text
from ..sweeping.schedules import schedules_of
from ..sweeping.sweep import Manner, join, runs_of, slice_of, sweep
from ..sweeping.table import rows_of


def seeds_of(text: str) -> List[int]:
    """The seeds of a list such as 1-20,77."""
    if not re.fullmatch("[0-9]+(-[0-9]+)?(,[0-9]+(-[0-9]+)?)*", text):
        raise argparse.ArgumentTypeError(f"`{text}` is no list of seeds such as 1-20,77")
    bounds = (part.partition("-") for part in text.split(","))
    seeds = [seed for first, _, last in bounds for seed in range(int(first), int(last or first) + 1)]
    if not seeds:
        raise argparse.ArgumentTypeError(f"`{text}` has no seed in it")
    return seeds


def slice_named(text: str) -> Tuple[int, int]:
    """The numbers of a slice such as 2/4."""
    found = re.fullmatch("([1-9][0-9]*)/([1-9][0-9]*)", text)
    if not found or int(found[1]) > int(found[2]):
        raise argparse.ArgumentTypeError(f"`{text}` is no slice such as 2/4, the second of four")
    return int(found[1]), int(found[2])


def parser() -> argparse.ArgumentParser:
    found = command_line.parser("tools/sweep", __doc__)
    found.add_argument("table", metavar="TABLE")
    found.add_argument("--layouts", nargs="+", default=[], metavar="LAYOUT")
    found.add_argument("--programs", nargs="+", default=[], metavar="PROGRAM")
    found.add_argument("--rule", action="store_true", help="the fixed rule")
    found.add_argument("--seeds", type=seeds_of, default=[], help="seeds such as 1-20,77, of the delays where there are any")
    found.add_argument("--rounds", action="store_true", help="clocked rounds")
    found.add_argument("--delays", nargs="+", default=[], metavar="FILE", help="files of delays")
    found.add_argument("--guess", nargs="+", default=[], metavar="RULE", help="guess rules, each with each schedule")
    found.add_argument("--limit", type=int, default=10_000_000, help="instructions of a run (10,000,000)")
    found.add_argument("--kinds", action="store_true", help="count the moves of each kind")
    found.add_argument("--jobs", type=int, default=Manner.jobs, help="runs at once (one a processor)")
    found.add_argument("--slice", type=slice_named, default=(1, 1), metavar="K/M", help="the Kth of M slices of the runs")
    found.add_argument("--join", nargs="+", default=[], metavar="TABLE", help="add the rows of these tables")
    found.add_argument("--means", type=pathlib.Path, metavar="FILE", help="write the means over seeds")
    return found


def asked_schedules(arguments: argparse.Namespace) -> Sequence[str]:
    """The schedules that the arguments name."""
    if arguments.guess and b"--guess" not in call(["help"]).output:
        raise command_line.Stop("this cfpp knows no option --guess")
    return schedules_of(arguments.rule, arguments.rounds, arguments.delays, arguments.seeds, arguments.guess)


def print_rows(limit: int, kinds: bool, runs: Sequence[str]) -> None:
    """What a job of parallel does: makes some runs, and prints their rows."""
    rows = (make_row(Run(*run.split("\t")), limit, kinds) for run in runs)
    columns = [*COLUMNS, KINDS] if kinds else COLUMNS
    sys.stdout.writelines(row_text(row, columns) for row in rows)


def main(given: Sequence[str]) -> None:
    if given[:1] == ["--rows"]:
        print_rows(int(given[1]), given[2] == "1", given[3:])
        return
    cut = list(given).index("--") if "--" in given else len(given)
    arguments = parser().parse_args(given[:cut])
    schedules = asked_schedules(arguments)
    has_lists = bool(arguments.layouts and arguments.programs and schedules)
    if not has_lists and (not (arguments.join or arguments.means) or arguments.layouts or arguments.programs or schedules):
        parser().error("--layouts, --programs and schedules, as --rule or --seeds, are needed; --join and --means need none of them")
    if arguments.join:
        join(arguments.table, arguments.join, arguments.kinds)
    if has_lists:
        runs = slice_of(runs_of(arguments.layouts, arguments.programs, schedules), *arguments.slice)
        sweep(arguments.table, runs, Manner(arguments.limit, arguments.kinds, arguments.jobs, given[cut + 1 :]))
    rows = rows_of(arguments.table)
    if arguments.means:
        arguments.means.write_text(means_text(rows))
    for remark in remarks(rows):
        print(f"tools/sweep: {remark}", file=sys.stderr)
