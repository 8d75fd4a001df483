"""Makes runs: several at once on this machine, or by GNU parallel on several machines."""

from __future__ import annotations

import concurrent.futures
import os
import pathlib
import platform
import shutil
import subprocess
import sys
import time
from typing import Container, Iterator, List, Optional, Sequence

from ..command_line import Stop
from .runs import Row, Run, make_row, read_rows

# How many runs one job of parallel makes at most.
MOST_AT_ONCE = 10


def log(name: str, run: Run, began: float) -> None:
    """Says in the log when, where and for how long a run was made."""
    when = time.strftime("%Y-%m-%dT%H:%M:%S", time.localtime(began))
    with open(name, "a") as file:
        file.write("\t".join([when, platform.node(), f"{time.time() - began:.3f}", *run]) + "\n")


def made_here(
    runs: Sequence[Run], made: Container[Run], limit: int, kinds: bool, jobs: int, log_name: str
) -> Iterator[Row]:
    """The rows of the runs as they end, but of those that are in `made` by then."""

    def one(run: Run) -> Optional[Row]:
        if run in made:
            return None
        began = time.time()
        row = make_row(run, limit, kinds)
        log(log_name, run, began)
        return row

    with concurrent.futures.ThreadPoolExecutor(jobs) as pool:
        waiting = [pool.submit(one, run) for run in runs]
        try:
            ended = (future.result() for future in concurrent.futures.as_completed(waiting))
            yield from (row for row in ended if row is not None)
        except BaseException:
            pool.shutdown(wait=False, cancel_futures=True)
            raise


def sweep_program() -> str:
    """The program of sweeps beside the one that was started, which may be that of explorations."""
    started = pathlib.Path(sys.argv[0]).resolve()
    return str(started.with_name("cfpp-sweep" if started.name.startswith("cfpp-") else "sweep"))


def command_of(runs: Sequence[Run], limit: int, kinds: bool, options: Sequence[str], log_name: str) -> List[str]:
    """The call of parallel, which calls tools/sweep for some runs at a time."""
    if not shutil.which("parallel"):
        raise Stop("GNU parallel is not installed")
    at_once = str(max(1, min(MOST_AT_ONCE, len(runs) // 40)))
    command = ["parallel", "--workdir", os.getcwd(), "--joblog", f"+{log_name}", "-n", at_once, *options]
    return [*command, sweep_program(), "--rows", str(limit), str(int(kinds)), "{}"]


def made_by_parallel(
    runs: Sequence[Run], columns: Sequence[str], limit: int, kinds: bool, options: Sequence[str], log_name: str
) -> Iterator[Row]:
    """The rows of the runs as parallel gives them."""
    command = command_of(runs, limit, kinds, options, log_name)
    with subprocess.Popen(command, stdin=subprocess.PIPE, stdout=subprocess.PIPE, text=True) as parallel:
        if parallel.stdin is None or parallel.stdout is None:
            raise Stop("parallel has no streams")
        with parallel.stdin:
            parallel.stdin.writelines("\t".join(run) + "\n" for run in runs)
        yield from (row for line in parallel.stdout if line.endswith("\n") for row in read_rows([line], columns))
    if parallel.returncode:
        raise Stop(f"parallel ended with {parallel.returncode}: see {log_name}")
