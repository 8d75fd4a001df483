"""A timed run for other tools, in ticks.

The run was worked out by hand: two additions without sources, on two stages that both add, one tick for each move, up to the first
retirement. Of moves that finish at the same time the first in the order of candidates is made: so the second addition is issued
while the first one is executed."""

from __future__ import annotations

import csv
import subprocess

import pytest

from cfpp_tools.program import call

# addi x1, x0, 1
# addi x2, x0, 2
PROGRAM = bytes.fromhex("93001000" "13012000")
MOVES = """move 1 from 0 to 1 issue next
move 2 from 1 to 2 climb 1
move 3 from 2 to 3 issue next
move 4 from 2 to 3 execute 2
move 5 from 3 to 4 execute 1
move 6 from 3 to 4 send 2
move 7 from 4 to 5 fall 2
move 8 from 5 to 6 meet 1
move 9 from 5 to 6 leave
"""
KANATA = """Kanata	0004
C=	0
I	0	0	0
L	0	0	00010000 addi x1, x0, 1
S	0	0	1
C	1
L	0	1	1 from 0 to 1 issue next\\n
C	1
L	0	1	2 from 1 to 2 climb 1\\n
E	0	0	1
S	0	0	2
I	1	1	0
L	1	0	00010004 addi x2, x0, 2
S	1	0	1
C	1
L	1	1	3 from 2 to 3 issue next\\n
L	0	1	4 from 2 to 3 execute 2\\n
C	1
L	1	1	5 from 3 to 4 execute 1\\n
L	0	1	6 from 3 to 4 send 2\\n
C	2
L	1	1	8 from 5 to 6 meet 1\\n
L	0	1	9 from 5 to 6 leave retired\\n
E	0	0	2
R	0	1	0
C	1
"""


@pytest.fixture
def timed(tmp_path, tools, examples, built):
    """Writes the report of the timed run, changed or not, in a format of tools/trace."""
    layout, delays = str(examples / "layouts" / "tiny.toml"), examples / "delays" / "equal.delays"
    program, report = tmp_path / "p.bin", tmp_path / "report"
    program.write_bytes(PROGRAM)
    told = call(["time", delays, program, layout, "--limit", "1", "--show", "moves"]).report
    assert told == f"{MOVES}{layout}: limit 1 time 6 moves 9 retired 1\nleast {layout}\n"

    def write(form, old="", new="", on=layout):
        report.write_text(told.replace(old, new, 1))
        return subprocess.run([tools / "trace", form, on, program, report], capture_output=True, text=True)

    return write


def test_a_table_in_ticks(timed):
    rows = list(csv.DictReader(timed("csv").stdout.splitlines()))
    assert [f"move {row['move']} from {row['start']} to {row['finish']} {row['kind']}" for row in rows] == [
        " ".join(line.split()[:7]) for line in MOVES.splitlines()
    ]
    assert [row["instruction"] for row in rows] == ["1", "1", "2", "1", "2", "1", "", "2", "1"]


def test_a_script_of_a_timed_run(timed):
    assert timed("script").stdout == "".join(line.split(" ", 6)[6] + "\n" for line in MOVES.splitlines())


def test_a_cycle_is_a_tick(timed):
    assert timed("konata").stdout == KANATA


def waves(text):
    """By time the values of the variables that change then."""
    head, _, rest = text.partition("$enddefinitions $end\n")
    scope, names, now, found = "", {}, 0, {}
    for words in map(str.split, head.splitlines()):
        scope = words[2] if words[0] == "$scope" else scope
        if words[0] == "$var":
            names[words[3]] = f"{scope}.{words[4]}"
    for line in rest.splitlines():
        if line.startswith("#"):
            now = int(line[1:])
            found[now] = {}
        else:
            value, _, name = line.partition(" ") if " " in line else (line[0], "", line[1:])
            found[now][names[name]] = value
    return found


def test_waves_in_ticks(timed):
    found = waves(timed("vcd").stdout)
    assert list(found) == [0, 1, 2, 3, 4, 5, 6, 7]
    # A climb and a fall use both stages, and in the third tick there is a move in each.
    moves = [(at, found[at].get("stage2.move"), found[at].get("stage1.move")) for at in range(7)]
    assert moves == [
        (0, "s-", "sissue\\040next"),
        (1, "sclimb\\0401", "sclimb\\0401"),
        (2, "sexecute\\0402", "sissue\\040next"),
        (3, "ssend\\0402", "sexecute\\0401"),
        (4, "sfall\\0402", "sfall\\0402"),
        (5, "sleave", "smeet\\0401"),
        (6, "s-", "s-"),
    ]
    assert found[2]["stage2.pc"] == f"b{0x10000:032b}" and found[3]["stage1.pc"] == f"b{0x10004:032b}"
    assert found[6]["processor.retired"] == f"b{1:032b}" and "processor.retired" not in found[5]


def test_all_waves_are_shown(timed):
    assert timed("gtkw").stdout.count("\ncfpp.") == timed("vcd").stdout.count("$var")


def test_what_a_move_waited_for(timed):
    edges = [line.split(" [")[0].strip(" ;") for line in timed("dot").stdout.splitlines() if "->" in line]
    assert edges == "m1 -> m2,m1 -> m3,m2 -> m3,m2 -> m4,m3 -> m5,m4 -> m6,m5 -> m7,m6 -> m7,m7 -> m8,m7 -> m9".split(",")


@pytest.mark.parametrize(
    "old, new, reason",
    [
        ("from 2 to 3 execute 2", "from 1 to 3 execute 2", "move 4 does not start when those that it has to wait for have finished"),
        ("execute 2", "send 2", "move 4 cannot be made: OwesNothing"),
        ("move 8 from", "move 7 from", "line 8: move 8 is missing"),
        ("limit 1", "exit 0", "its moves end with `script end after 9 moves`, and not with `exit 0`"),
        ("moves 9", "moves 10", "it shows 9 of 10 moves: `cfpp time` shows them with --show moves"),
        (MOVES, "", "it shows 0 of 9 moves: `cfpp time` shows them with --show moves"),
    ],
)
def test_a_run_that_is_none(timed, old, new, reason):
    made = timed("csv", old, new)
    assert (made.returncode, made.stdout) == (1, "") and f": {reason}" in made.stderr


def test_another_layout(timed, examples):
    assert "it has no run on plain, but on " in timed("csv", on="plain").stderr


def test_one_of_several_layouts(tmp_path, tools, examples, built):
    """Whatever finishes first is made: with a seed the moves of plain need not finish in the order in which they are made."""
    layouts, delays = ["plain", examples / "layouts" / "tiny.toml"], examples / "delays" / "ranges.delays"
    program, report = examples / "sorted.bin", tmp_path / "report"
    options = ["--limit", "100", "--show", "moves", "--seed", "3", "--guess", "backward"]
    told = call(["time", delays, program, *layouts, *options]).report
    report.write_text(told)
    lines = told.splitlines()
    made = [line.split()[1:6:2] for line in lines[: next(at for at, line in enumerate(lines) if line.startswith("plain: "))]]
    text = subprocess.run([tools / "trace", "csv", "plain", program, report], capture_output=True, text=True, check=True).stdout
    rows = [[row["move"], row["start"], row["finish"]] for row in csv.DictReader(text.splitlines())]
    assert sorted(rows, key=lambda row: int(row[0])) == made
    assert [int(row[2]) for row in rows] == sorted(int(row[2]) for row in made)
