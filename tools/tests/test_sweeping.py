"""Sweeps lose nothing: not where two add to one table, and not where they are killed."""

from __future__ import annotations

import os
import random
import shutil
import signal
import subprocess
import sys
import time

import pytest

from cfpp_tools.command_line import Stop
from cfpp_tools.sweeping.runs import COLUMNS, Run, row_text, run_of
from cfpp_tools.sweeping.schedules import schedules_of
from cfpp_tools.sweeping.sweep import Manner, join, runs_of, slice_of, sweep
from cfpp_tools.sweeping.table import Table, rows_of

HEAD = ",".join(COLUMNS) + "\n"
TOOLS = os.path.dirname(os.path.dirname(os.path.abspath(__file__)))


def row(number: int):
    return dict.fromkeys(COLUMNS, "") | {"layout": "plain", "program": "p", "schedule": f"seed {number}", "moves": str(number)}


def runs(count: int):
    return [run_of(row(number)) for number in range(count)]


def test_slices_are_all_runs():
    all_runs = runs(10)
    assert [run for number in (1, 2, 3, 4) for run in slice_of(all_runs, number, 4)] == all_runs


def test_names_stay_on_their_line():
    with pytest.raises(Stop):
        runs_of(["a\nb"], ["p"], ["rule"])


def test_a_row_that_was_cut_off_is_taken_out(tmp_path):
    name = tmp_path / "table.csv"
    name.write_text(HEAD + row_text(row(1), COLUMNS) + row_text(row(2), COLUMNS)[:-5])
    with Table(name) as table:
        assert list(table.rows) == [run_of(row(1))]
        table.add(row(2))
    assert name.read_text() == HEAD + row_text(row(1), COLUMNS) + row_text(row(2), COLUMNS)


def test_another_table_is_refused(tmp_path):
    name = tmp_path / "table.csv"
    name.write_text("a,b\n1,2\n")
    with pytest.raises(Stop, match="is no table of runs"):
        Table(name)
    assert name.read_text() == "a,b\n1,2\n"


def doing(name, code):
    """The call that does something with the table in another process: a process does not lock itself out."""
    head = f"from tests.test_sweeping import row, runs\nfrom cfpp_tools.sweeping.table import Table\ntable = Table({str(name)!r})\n"
    return [sys.executable, "-c", head + code]


def elsewhere(name, code):
    subprocess.run(doing(name, code), cwd=TOOLS, check=True)


def numbers(name):
    return [int(found["moves"]) for found in rows_of(name)]


def test_rows_are_put_in_order_by_the_last_alone(tmp_path):
    name = tmp_path / "table.csv"
    with Table(name) as table:
        for number in (2, 1, 0):
            table.add(row(number))
        elsewhere(name, "table.add(row(4)); table.finish(runs(3))")
        table.add(row(3))
        assert numbers(name) == [2, 1, 0, 4, 3]
        table.finish(runs(4))
    assert numbers(name) == [0, 1, 2, 3, 4]


def test_of_two_that_end_at_the_same_time_the_second_is_the_last(tmp_path):
    name = tmp_path / "table.csv"
    with Table(name) as table:
        table.add(row(1))
        table.add(row(0))
        waits = doing(name, "table.finish(runs(2)); print('finished', flush=True); input()")
        with subprocess.Popen(waits, cwd=TOOLS, stdin=subprocess.PIPE, stdout=subprocess.PIPE, text=True) as other:
            assert other.stdout.readline() == "finished\n" and numbers(name) == [1, 0]
            table.finish(runs(2))
            assert numbers(name) == [0, 1]
            other.communicate("\n")
    assert other.returncode == 0


def test_the_row_of_another_process_is_not_added_again(tmp_path):
    name = tmp_path / "table.csv"
    with Table(name) as table:
        elsewhere(name, "table.add(row(1))")
        table.add(row(1))
        table.add(row(2))
    assert numbers(name) == [1, 2]


def test_tables_are_joined(tmp_path):
    for number, at in enumerate((1, 2, 3), 1):
        with Table(tmp_path / f"{number}.csv") as table:
            table.add(row(at))
    join(tmp_path / "all.csv", [tmp_path / f"{number}.csv" for number in (1, 2, 3, 2)])
    assert (tmp_path / "all.csv").read_text() == HEAD + "".join(row_text(row(at), COLUMNS) for at in (1, 2, 3))
    other = tmp_path / "other.csv"
    other.write_text(HEAD + row_text(row(2) | {"moves": "7"}, COLUMNS))
    with pytest.raises(Stop, match="another row of the run plain p seed 2"):
        join(tmp_path / "all.csv", [other])


# With the program from here on.
SEEDS = 40


def call_of(table, examples):
    layouts = ["--layouts", "plain", str(examples / "layouts" / "tiny.toml")]
    programs = ["--programs", str(examples / "seven.bin")]
    return [os.path.join(TOOLS, "sweep"), str(table), *layouts, *programs, "--seeds", f"1-{SEEDS}"]


@pytest.fixture(scope="module")
def whole(tmp_path_factory, built):
    """The table of a sweep that nothing disturbed."""
    from cfpp_tools.program import TOP

    name = tmp_path_factory.mktemp("whole") / "table.csv"
    layouts = ["plain", str(TOP / "examples" / "layouts" / "tiny.toml")]
    schedules = [f"seed {seed}" for seed in range(1, SEEDS + 1)]
    sweep(name, runs_of(layouts, [str(TOP / "examples" / "seven.bin")], schedules), Manner())
    assert len(rows_of(name)) == 2 * SEEDS
    return name.read_text()


@pytest.mark.parametrize("number", range(10))
def test_two_sweeps_at_once(tmp_path, examples, whole, number):
    table = tmp_path / "table.csv"
    both = [subprocess.Popen(call_of(table, examples)) for _ in range(2)]
    assert [process.wait() for process in both] == [0, 0]
    assert table.read_text() == whole


def rows_in(table):
    """The rows of a table that is being made, without one that was cut off."""
    return table.read_text().split("\n")[1:-1] if table.exists() else []


def killed(table, examples, reached):
    """Starts a sweep, and kills it when it has reached something; False where it has ended before."""
    process = subprocess.Popen(call_of(table, examples), start_new_session=True, stderr=subprocess.DEVNULL)
    while process.poll() is None and not reached():
        time.sleep(0.0001)
    if process.returncode is None:
        os.killpg(process.pid, signal.SIGKILL)
    return process.wait() == -signal.SIGKILL


def test_killed_at_twenty_moments(tmp_path, examples, whole):
    """Each a moment after the sweep has added some rows. Where it is whole before, another is begun."""
    table = tmp_path / "table.csv"
    draw = random.Random(1)
    kills = 0
    while kills < 20:
        before = set(rows_in(table))
        wanted, moment = len(before) + draw.randint(1, 4), draw.uniform(0, 0.01)
        if killed(table, examples, lambda: len(rows_in(table)) >= wanted and time.sleep(moment) is None):
            kills += 1
            after = rows_in(table)
            assert before <= set(after) <= set(whole.splitlines()) and len(set(after)) == len(after)
        else:
            assert table.read_text() == whole
            table.unlink()
    subprocess.run(call_of(table, examples), check=True)
    assert table.read_text() == whole


def test_killed_while_the_rows_are_put_in_order(tmp_path, examples, whole):
    head, *rows = whole.splitlines(keepends=True)
    backwards = head + "".join(rows[::-1])
    table = tmp_path / "table.csv"
    for _ in range(5):
        table.write_text(backwards)
        killed(table, examples, table.with_name("table.csv.new").exists)
        assert table.read_text() in (backwards, whole)
        subprocess.run(call_of(table, examples), check=True)
        assert table.read_text() == whole


def test_an_array_of_four(tmp_path, examples, whole):
    tables = [tmp_path / f"{number}.csv" for number in (1, 2, 3, 4)]
    for number, table in enumerate(tables, 1):
        subprocess.run([*call_of(table, examples), "--slice", f"{number}/4"], check=True)
    subprocess.run([os.path.join(TOOLS, "sweep"), str(tmp_path / "all.csv"), "--join", *map(str, tables)], check=True)
    assert (tmp_path / "all.csv").read_text() == whole


def test_runs_by_gnu_parallel(tmp_path, examples, whole):
    if not shutil.which("parallel"):
        pytest.skip("GNU parallel is not installed")
    table = tmp_path / "table.csv"
    subprocess.run([*call_of(table, examples), "--", "--jobs", "2"], check=True)
    assert table.read_text() == whole


@pytest.mark.parametrize("arguments", [[], ["--layouts", "plain", "--programs", "p"], ["--join", "t", "--rule"]])
def test_lists_that_are_not_whole(tmp_path, arguments):
    made = subprocess.run([os.path.join(TOOLS, "sweep"), "new.csv", *arguments], cwd=tmp_path, capture_output=True, text=True)
    assert made.returncode == 2 and "are needed" in made.stderr and list(tmp_path.iterdir()) == []


@pytest.mark.parametrize(
    "argument, value, reason",
    [("--slice", "5/4", "no slice"), ("--slice", "0/4", "no slice"), ("--seeds", "9-1", "no seed in it"), ("--seeds", "x", "no list of seeds")],
)
def test_what_is_no_slice_or_list(tmp_path, argument, value, reason):
    call = [os.path.join(TOOLS, "sweep"), "new.csv", "--layouts", "plain", "--programs", "p", "--rule", argument, value]
    made = subprocess.run(call, cwd=tmp_path, capture_output=True, text=True)
    assert made.returncode == 2 and reason in made.stderr and list(tmp_path.iterdir()) == []


def test_a_guess_rule_that_there_is_none_of():
    with pytest.raises(Stop, match="`forward` is no guess rule"):
        schedules_of(True, False, [], [], ["backward", "forward"])


def test_a_run_of_each_schedule(tmp_path, examples, built):
    """By hand: `seven` retires two instructions and ends with 7, whatever the order of the moves."""
    delays = f"delays {examples / 'delays' / 'equal.delays'}"
    name = tmp_path / "table.csv"
    sweep(name, runs_of(["plain"], [str(examples / "seven.bin")], ["rule", "seed 7", "rounds", delays]), Manner(kinds=True))
    rows = rows_of(name)
    assert [(found["ending"], found["retired"]) for found in rows] == [("exit 7", "2")] * 4
    assert [bool(found["rounds"]) for found in rows] == [False, False, True, False]
    assert "issue=" in rows[3]["kinds"] and rows[3]["time"] and not rows[0]["kinds"]


def test_what_is_refused_has_a_row(tmp_path, built):
    name = tmp_path / "table.csv"
    sweep(name, [Run("plain", str(tmp_path / "missing.bin"), "rule")], Manner())
    assert rows_of(name)[0]["ending"] == "read fault program"
