"""Rows that cannot be compared are marked: they ended otherwise, or retired another number of instructions."""

from __future__ import annotations

import subprocess

import pytest

from cfpp_tools.programs.plot import bars, front, means, table
from cfpp_tools.sweeping.comparing import remarks, unlike
from cfpp_tools.sweeping.runs import COLUMNS, Run, row_text


def row(layout, ending="exit 0", retired=100, program="p.bin", **more):
    given = {"layout": layout, "program": program, "schedule": "rule", "ending": ending, "retired": str(retired), "moves": "1000"}
    return {**dict.fromkeys(COLUMNS, ""), **given, **more}


ALIKE = [row("plain"), row("tiny"), row("plain", program="q.bin", retired=7), row("tiny", program="q.bin", retired=7)]
SHORT = row("short", ending="limit 50", retired=50, moves="400")


def test_rows_that_did_the_same():
    assert not unlike(ALIKE) and not remarks(ALIKE)


@pytest.mark.parametrize("other", (SHORT, row("short", retired=99), row("short", ending="exit 1"), row("short", ending="bad layout: A", retired="")))
@pytest.mark.parametrize("place", (0, 1, 4))
def test_the_row_that_did_other_work(other, place):
    assert unlike([*ALIKE[:place], other, *ALIKE[place:]]) == {Run("short", "p.bin", "rule")}


def test_a_line_for_each_program_and_one_for_the_limit():
    assert remarks([*ALIKE, SHORT]) == [
        "p.bin: 1 of 3 rows cannot be compared with `exit 0 retired 100`: short rule: limit 50",
        "1 of 5 rows met the limit: what they count is of the beginning of a run",
    ]


def test_all_rows_met_the_limit():
    assert remarks([row("plain", ending="limit 9", retired=9), row("tiny", ending="limit 9", retired=9)]) == [
        "2 of 2 rows met the limit: what they count is of the beginning of a run"
    ]


def test_many_rows_that_cannot_be_compared():
    others = [row(f"layout{number}", ending=f"exit {number}") for number in range(1, 6)]
    assert remarks([row("plain"), row("tiny"), *others]) == [
        "p.bin: 5 of 7 rows cannot be compared with `exit 0 retired 100`: "
        "layout1 rule: exit 1; layout2 rule: exit 2; layout3 rule: exit 3; and 2 more"
    ]


def test_a_table_marks_them():
    lines = "\n".join(table([*ALIKE, SHORT])).splitlines()
    assert "| short * | 50 | 400 |  |  |  |" in lines and "| tiny | 100 | 1,000 |  |  |  |" in lines
    assert lines[-1] == "\\* 1 of 5 rows met the limit: what they count is of the beginning of a run"


def test_means_leave_them_out():
    slow = row("short", program="q.bin", retired=7, moves="3000")
    assert means([*ALIKE, SHORT, slow], "moves") == pytest.approx({"plain": 1, "tiny": 1, "short": 3})


def test_pictures_mark_them(monkeypatch, examples):
    monkeypatch.setattr("cfpp_tools.programs.plot.gnuplot", lambda text: text)
    drawn = bars([*ALIKE, SHORT], "moves")
    assert '"short *"' in drawn and '"tiny"' in drawn
    names = [str(examples / "layouts" / f"{name}.toml") for name in ("plain", "tiny")]
    seen = []
    monkeypatch.setattr("cfpp_tools.programs.plot.drawing", lambda points, *_: str(seen.extend(points)))
    front([row(names[0]), row(names[1]), row(names[0], program="q.bin"), row(names[1], program="q.bin", retired=1)], "moves")
    assert [point.name for point in seen] == ["plain", "tiny *"]


def test_bars_of_times(monkeypatch):
    """For 100 instructions 300 and 500 ticks: 4 for one, from 3 to 5."""
    monkeypatch.setattr("cfpp_tools.programs.plot.gnuplot", lambda text: text)
    drawn = bars([row("plain", time="300", schedule="delays d seed 1"), row("plain", time="500", schedule="delays d seed 2")], "time")
    assert 'set xlabel "ticks for one retired instruction"' in drawn
    assert "$b0 << END\n4.0 0.0 0 4.0 -0.4 0.4 3.0 5.0\nEND\n" in drawn


def test_a_sweep_says_so(tools, tmp_path, examples, built):
    """A table with two rows of other layouts is given; the run that is made ends as the program is known to end, and its limit is met."""
    text = "".join(row_text(each, COLUMNS) for each in (dict(zip(COLUMNS, COLUMNS)), row("a"), row("b")))
    (tmp_path / "t.csv").write_text(text)
    made = subprocess.run(
        [tools / "sweep", tmp_path / "t.csv", "--layouts", "plain", "--programs", examples / "seven.bin", "--rule", "--limit", "1"],
        capture_output=True,
        text=True,
        check=True,
    )
    said = [line for line in made.stderr.splitlines() if line.startswith("tools/sweep: ")]
    assert said == ["tools/sweep: 1 of 3 rows met the limit: what they count is of the beginning of a run"]
