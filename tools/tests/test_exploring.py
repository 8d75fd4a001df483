"""Spaces of layouts, their costs, and the front."""

from __future__ import annotations

import csv
import os
import pathlib
import random
import shutil
import subprocess

import pytest

from cfpp_tools.exploring.explore import Exploration
from cfpp_tools.exploring.space import Space
from cfpp_tools.exploring.task import read_task
from cfpp_tools.front import Point, drawing, front_of, labels_of
from cfpp_tools.readers.layouts import Layout, Siding
from cfpp_tools.readers.lines import Lines
from cfpp_tools.readers.layouts import read_layout

SPACE = {
    "stages": {"from": 2, "to": 3},
    "lane": [4],
    "units": {"add": {"any": [1, "top"], "most": 2}, "logic": [[1]], "shift": [["top"]]},
    "siding": [{"classes": ["memory"], "launch": [1], "recover": ["top"], "cells": [1, 2]}],
}


def test_the_points_of_a_space():
    space = Space(SPACE)
    points = list(space.points())
    assert space.size == len(points) == 2 * 3 * 2
    assert [space.number(point) for point in points] == list(range(12))
    layout = read_layout(Lines(space.text(points[-1])))
    assert layout == Layout(3, 4, False, {"add": (1, 3), "logic": (1,), "shift": (3,)}, (Siding(("memory",), 1, 3, 2),))
    assert len(list(space.neighbours(points[0]))) == 3


def test_costs_and_energy(examples):
    task = read_task(examples / "spaces" / "few_stages.toml")
    layout = Layout(3, 4, True, {"add": (1, 3), "shift": (3,)}, (Siding(("memory",), 1, 3, 2),))
    # Three stages of 4, a lane of 4, two cells of 2, a cache of 6, two adders of 4 and a shifter of 4.
    assert task.cost_of(layout) == 12 + 4 + 4 + 6 + 8 + 4
    assert task.energy_of({"issue": 3, "access": 2, "leave": 9}) == 6 + 20


def test_the_runs_of_a_layout(examples):
    """A run of each program from each seed, under the guess rule."""
    task = read_task(examples / "spaces" / "few_stages.toml")
    delays = os.path.relpath(examples / "delays" / "ranges.delays")
    assert task.schedules == [f"delays {delays} seed {seed} guess backward" for seed in (1, 2, 3)]


def test_the_mean_of_the_seeds(examples, tmp_path):
    """By hand: the means of the seeds are 20 and 80, of which the geometric mean is 40; 24 is 4 away from 20, and 88 is 8 from 80."""
    exploration = Exploration(read_task(examples / "spaces" / "few_stages.toml"), tmp_path, [])
    times = {"sorted": (16, 20, 24), "fibonacci": (72, 80, 88)}
    runs = [run for program in exploration.task.programs for run in exploration.runs("a.toml", program)]
    rows = {
        run: {"program": run.program, "time": str(times[pathlib.Path(run.program).stem][at % 3]), "kinds": "issue=5 leave=7"}
        for at, run in enumerate(runs)
    }
    found = exploration.measured("a.toml", Layout(2, 2, False, {"add": (1,)}, ()), rows)
    assert (found.time, found.energy, found.spread) == (pytest.approx(40), pytest.approx(10), pytest.approx(0.2))


def test_the_front():
    points = [Point(3, 1, "c"), Point(1, 3, "a"), Point(2, 2, "b"), Point(2, 2, "b2"), Point(3, 2, "beaten"), Point(1, 4, "beaten")]
    front = front_of(points)
    assert [point.name for point in front] == ["a", "b", "b2", "c"]
    assert list(labels_of(front).values()) == ["a", "b and 1 more", "c"]


def test_two_thousand_points_are_drawn_at_once():
    """In five seconds of the processors, whatever else the machine does."""
    if not shutil.which("gnuplot"):
        pytest.skip("gnuplot is not installed")
    draw = random.Random(1)
    points = [Point(draw.randrange(10, 99), draw.random(), f"layout_{number}") for number in range(2000)]
    began = sum(os.times()[:4])
    text = drawing(points, "cost", "time")
    assert sum(os.times()[:4]) - began < 5
    named = [point for point in points if f">{point.name}<" in text.replace(" and", "<")]
    assert {point.name for point in named} == {point.name for point in front_of(points)}


def task_file(tmp_path, examples, search):
    name = tmp_path / "space.toml"
    name.write_text(
        "[space]\nstages = { from = 2, to = 3 }\nlane = [2, 4]\n[space.units]\nadd = [[1], [\"top\"], [1, \"top\"]]\nlogic = [[1]]\n"
        'shift = [["top"]]\ncompare = [[1]]\nbranch = [[1], [3]]\njump = [[1]]\n[[space.siding]]\nclasses = ["memory"]\n'
        f'launch = [1]\nrecover = ["top"]\ncells = [1]\n[runs]\nprograms = ["{examples / "seven.bin"}"]\n'
        f'delays = "{examples / "delays" / "equal.delays"}"\n[cost]\nstage = 1\nunits = {{ add = 1 }}\n[energy]\nissue = 1\n'
        f"[search]\n{search}\n"
    )
    return name


def test_all_points(tools, tmp_path, examples, built):
    """Branches at stage 3 are above the memory at stage 1, or nowhere: half of the 24 points are refused."""
    folder = tmp_path / "found"
    made = subprocess.run([tools / "explore", task_file(tmp_path, examples, "seed = 1"), folder], capture_output=True, text=True)
    assert made.returncode == 0 and made.stdout.startswith("24 points, 12 layouts run, 12 refused, ")
    rows = list(csv.DictReader(open(folder / "table.csv")))
    assert len(rows) == 12 and {row["cost"] for row in rows} == {"3", "4", "5"}
    front = [row["layout"] for row in csv.DictReader(open(folder / "front.csv"))]
    assert sorted(path.stem for path in (folder / "best").iterdir()) == sorted(front)


def test_runs_by_gnu_parallel(tools, tmp_path, examples, built):
    if not shutil.which("parallel"):
        pytest.skip("GNU parallel is not installed")
    name = task_file(tmp_path, examples, "seed = 1")
    for folder, options in (("here", []), ("by_parallel", ["--", "--jobs", "2"])):
        subprocess.run([tools / "explore", name, tmp_path / folder, *options], check=True)
    assert (tmp_path / "here" / "table.csv").read_text() == (tmp_path / "by_parallel" / "table.csv").read_text()


def test_a_climb(tools, tmp_path, examples, built):
    folder = tmp_path / "found"
    name = task_file(tmp_path, examples, "most = 10\nclimbs = 2\nseed = 3")
    made = [subprocess.run([tools / "explore", name, folder], capture_output=True, text=True) for _ in range(2)]
    assert made[0].returncode == 0 and made[0].stdout == made[1].stdout
    assert len(list(csv.DictReader(open(folder / "table.csv")))) < 12
    name.write_text(name.read_text() + "front = [\"cost\", \"energy\"]\n")
    other = subprocess.run([tools / "explore", name, folder], capture_output=True, text=True)
    assert other.returncode == 1 and "holds what was found of another space" in other.stderr
