"""Schedules, and means over seeds. All means were worked out by hand."""

from __future__ import annotations

import csv
import subprocess

import pytest

from cfpp_tools.command_line import Stop
from cfpp_tools.sweeping.means import COLUMNS, means_of, means_text
from cfpp_tools.sweeping.runs import Run
from cfpp_tools.sweeping.runs import COLUMNS as RUN_COLUMNS
from cfpp_tools.sweeping.schedules import Schedule, read_schedule, schedules_of, without_seed
from cfpp_tools.sweeping.sweep import Manner, sweep
from cfpp_tools.sweeping.table import rows_of
from cfpp_tools.sweeping.times_table import times_table


@pytest.mark.parametrize(
    "text, schedule, alike",
    [
        ("rule", Schedule("run", "", None, None), "rule"),
        ("rounds guess next", Schedule("rounds", "", None, "next"), "rounds guess next"),
        ("seed 7", Schedule("run", "", 7, None), "seeds"),
        ("delays a b.delays", Schedule("time", "a b.delays", None, None), "delays a b.delays"),
        ("delays a seed 3 guess taken", Schedule("time", "a", 3, "taken"), "delays a seeds guess taken"),
    ],
)
def test_a_schedule(text, schedule, alike):
    assert read_schedule(text) == schedule and without_seed(text) == alike


@pytest.mark.parametrize("text", ["", "seed", "delays", "rule seed 3", "seed x", "rule guess"])
def test_no_schedule(text):
    with pytest.raises(Stop, match="is no schedule"):
        read_schedule(text)


def test_seeds_are_those_of_the_delays_where_there_are_any():
    assert schedules_of(True, True, [], [1, 2], []) == ["rule", "seed 1", "seed 2", "rounds"]
    assert schedules_of(False, False, ["f", "g"], [1, 2], []) == [f"delays {file} seed {seed}" for file in "fg" for seed in (1, 2)]
    assert schedules_of(True, False, ["f"], [], ["any", "next"]) == [
        "rule guess any",
        "rule guess next",
        "delays f guess any",
        "delays f guess next",
    ]


def row(layout, schedule, time, issued=None, ending="exit 0"):
    told = {"layout": layout, "program": "x/p.bin", "schedule": schedule, "ending": ending, "retired": "100", "moves": "1000"}
    kinds = {"kinds": f"issue={issued} climb=7"} if issued else {}
    return {**dict.fromkeys(RUN_COLUMNS, ""), **told, "time": str(time), **kinds}


SEEDS = [row("plain", f"delays d/r.delays seed {seed} guess next", time, 150) for seed, time in ((1, 90), (2, 100), (3, 125))]
TINY = [row("y/tiny.toml", f"delays d/r.delays seed {seed} guess next", time, 120) for seed, time in ((1, 62), (2, 64), (3, 63))]
EQUAL = [row("plain", "delays d/e.delays", 200), row("y/tiny.toml", "delays d/e.delays", 50)]


def test_means_over_seeds():
    """(90 + 100 + 125) / 3 = 105, from which 125 is 20 away: 20 / 105 = 0.1905."""
    told = dict.fromkeys(COLUMNS, "") | {
        "layout": "plain",
        "program": "x/p.bin",
        "schedule": "delays d/r.delays seeds guess next",
        "runs": "3",
        "retired": "100",
        "moves": "1000",
        "moves_spread": "0",
        "time": "105",
        "time_spread": "0.190476",
        "issued": "1.500",
    }
    assert list(csv.DictReader(means_text(SEEDS).splitlines())) == [told]


def test_runs_that_did_other_work_are_left_out():
    limited = row("plain", "delays d/r.delays seed 4 guess next", 7, ending="limit 50")
    assert means_of([*SEEDS, limited]) == means_of(SEEDS)


def test_a_table_of_times():
    assert list(times_table([*SEEDS, *EQUAL, *TINY])) == [
        "| layout | p, r seeds next | p, e |\n|---|---:|---:|",
        "| plain | 105 (1.50) | 200 |",
        "| tiny | 0.60 (1.20) | 0.25 |",
        "\nFrom seed to seed times differ from their mean by at most 19.0%.",
    ]


def test_what_a_layout_lacks_is_left_empty():
    assert list(times_table([*SEEDS, *EQUAL]))[2] == "| tiny |  | 0.25 |"


def test_seeds_for_times(tmp_path, examples, built):
    """A seed gives its time whenever it is drawn, and of an empty program's three moves each takes from 10 to 20 ticks."""
    (tmp_path / "r.delays").write_text("issue 10-20\nclimb 10-20\nleave 10-20\n")
    (tmp_path / "empty.bin").write_bytes(b"")
    names = [str(examples / "layouts" / "tiny.toml"), str(tmp_path / "empty.bin")]
    runs = [Run(*names, f"delays {tmp_path / 'r.delays'}{seed}") for seed in ("", " seed 1", " seed 2", " seed 2 guess wait")]
    sweep(tmp_path / "table.csv", runs, Manner())
    middle, first, second, again = (int(found["time"]) for found in rows_of(tmp_path / "table.csv"))
    assert middle == 45 and 30 <= min(first, second) < max(first, second) <= 60 and again == second


def test_the_means_of_a_sweep(tmp_path, tools, examples, built):
    table, means = tmp_path / "table.csv", tmp_path / "means.csv"
    delays = examples / "delays" / "ranges.delays"
    lists = ["--layouts", "plain", "--programs", examples / "seven.bin", "--delays", delays, "--seeds", "1-3", "--guess", "backward"]
    subprocess.run([tools / "sweep", table, *lists, "--kinds"], check=True)
    assert [found["schedule"] for found in rows_of(table)] == [f"delays {delays} seed {seed} guess backward" for seed in (1, 2, 3)]
    subprocess.run([tools / "sweep", table, "--means", means], check=True)
    assert means.read_text() == means_text(rows_of(table)) and f",delays {delays} seeds guess backward,3,2," in means.read_text()
