"""Goals, and what is said of files that miss them."""

from __future__ import annotations

import csv
import io
import subprocess

import pytest

from cfpp_tools.command_line import Stop
from cfpp_tools.grading.goals import read_goals
from cfpp_tools.grading.grade import first_fault
from cfpp_tools.grading.rounds import moves_of, round_fault
from cfpp_tools.readers.layouts import Layout, Siding

TINY = Layout(2, 4, False, {"add": (1, 2)}, (Siding(("memory",), 1, 2, 1),))


def graded(tools, *arguments):
    made = subprocess.run([tools / "grade", *arguments], capture_output=True, text=True, check=True)
    return list(csv.reader(io.StringIO(made.stdout)))


@pytest.mark.parametrize("lesson, points", [(1, 4), (2, 5), (6, 7)])
def test_the_answers_meet_the_goals(tools, examples, built, lesson, points):
    found = graded(tools, examples / "goals" / f"lesson_{lesson}.toml")
    assert found == [["student", "points", "of", "first wrong"], ["answer", str(points), str(points), ""]]


def test_a_goal_without_an_answer(tools, tmp_path):
    (tmp_path / "goals.toml").write_text('[[goal]]\nname = "a"\nfile = "layout.toml"\nstages = 4\n')
    made = subprocess.run([tools / "grade", tmp_path / "goals.toml"], capture_output=True, text=True, check=False)
    assert (made.returncode, made.stdout) == (1, "") and made.stderr.endswith("goals.toml: the goal `a` names no answer\n")


def test_a_class(tools, examples, tmp_path, built):
    right = (examples / "answers" / "counted.script").read_text()
    scripts = {"ann": right, "ben": (examples / "scripts" / "garnering.script").read_text(), "cal": "issue next\nfrob\n"}
    for name, text in scripts.items():
        (tmp_path / name).mkdir()
        (tmp_path / name / "counted.script").write_text(text)
    (tmp_path / "dan").mkdir()
    rows = graded(tools, examples / "goals" / "lesson_1.toml", tmp_path)
    assert [row[:3] for row in rows[1:]] == [["ann", "4", "4"], ["ben", "0", "4"], ["cal", "0", "4"], ["dan", "0", "4"]]
    wrong = [row[3].split(": ", 1)[-1] for row in rows[1:]]
    assert wrong[0] == "" and wrong[1] == "retired is 0, and 2 is wanted" and wrong[3] == "counted.script is missing"
    assert wrong[2] == "it ends with `bad script line 2: UnknownMove`, and `script end` is wanted"


def test_bars_and_kills(tmp_path, examples, built):
    goals = tmp_path / "goals.toml"
    goals.write_text(
        '[[goal]]\nname = "a"\nfile = "s"\nlayout = "plain"\nprogram = "seven.bin"\nbarred = { "issue next" = "Occupied" }\n'
        '[[goal]]\nname = "b"\nfile = "s"\nlayout = "plain"\nprogram = "seven.bin"\nkills_at_least = 1\n'
    )
    (tmp_path / "seven.bin").write_bytes((examples / "seven.bin").read_bytes())
    (tmp_path / "s").write_text("issue next\n")
    barred, killed = read_goals(goals)
    assert first_fault(tmp_path / "s", barred) is None
    assert first_fault(tmp_path / "s", killed) == "the number of kills is 0, and at least 1 is wanted"
    (tmp_path / "s").write_text("")
    assert first_fault(tmp_path / "s", barred) == "`issue next` is allowed, and Occupied is wanted"


@pytest.mark.parametrize(
    "line, reason",
    [
        ("frob = 1", "unknown key `frob`"),
        ("points = 2", "a script needs `layout` and `program`"),
        ('retired = "2"', "`retired` has a value of a wrong type"),
        ("registers = { a0 = 2 }", "`a0` is not a register"),
        ("units_at_most = 3", "`units_at_most` has a value of a wrong type"),
    ],
)
def test_goals_with_a_fault(tmp_path, line, reason):
    (tmp_path / "goals.toml").write_text(f'[[goal]]\nname = "a"\nfile = "s"\n{line}\n')
    with pytest.raises(Stop, match=reason):
        read_goals(tmp_path / "goals.toml")


def test_other_comments_are_no_rounds(tmp_path):
    script = tmp_path / "script"
    script.write_text("# two rounds, in round numbers\n# round 1\nissue next\n# rounds\n# round\nclimb 1\n")
    before, rounds = moves_of(script)
    assert before == [] and [[move.text for _, move in moves] for moves in rounds] == [["issue next"], ["climb 1"]]
    assert round_fault(script, TINY, 2) is None
    assert round_fault(script, TINY, 1) == "2 rounds, and at most 1 are wanted"


def test_moves_of_a_round_share_no_place(tmp_path):
    script = tmp_path / "script"
    script.write_text("# round 1\nissue next\n# round 2\nleave\nexit\n# round 3\nclimb 1\nemit\n")
    assert round_fault(script, TINY, 9) == "line 8: `emit` and `climb 1` of one round share stage 2"
    script.write_text("issue next\n# round 1\n")
    assert round_fault(script, TINY, 9) == "line 1: `issue next` is before the first round"
