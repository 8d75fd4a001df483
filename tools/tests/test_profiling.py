"""Where the instructions and the moves of a run go, over reports that were written or counted by hand."""

from __future__ import annotations

import io
import subprocess

import pytest

from cfpp_tools.profiling.calls import Calls
from cfpp_tools.profiling.counting import REGISTER_FILE, Counts
from cfpp_tools.profiling.shown import shown
from cfpp_tools.profiling.symbols import Symbols
from cfpp_tools.programs.profile import profile
from cfpp_tools.readers.lines import ReadFault
from cfpp_tools.readers.listings import Listed

# main calls f, f goes on at g, and g returns; main then begins a loop of one jump. The second column of `retired` is the word.
MAIN, F, G = 0x10000, 0x10010, 0x10020
SYMBOLS = Symbols(
    {
        **{MAIN + 4 * at: Listed(0, "", "main", 4 * at) for at in range(4)},
        **{F + 4 * at: Listed(0, "", "f", 4 * at) for at in range(4)},
        **{G + 4 * at: Listed(0, "", "g", 4 * at) for at in range(4)},
    }
)
CALL, BACK, JUMP, CALL_BY_X5, BACK_BY_X5, OTHER = "010000ef", "00008067", "0000006f", "010002ef", "00028067", "00000513"


def retired(*instructions):
    """The lines of these instructions, by address and word."""
    lines = (f"retire {number} {address:08x} {word} -\n" for number, (address, word) in enumerate(instructions, 1))
    return "".join(lines)


def folded(text):
    return profile(io.BytesIO(text.encode()), SYMBOLS, True)


def table(text):
    return [line.split() for line in profile(io.BytesIO(text.encode()), SYMBOLS, False)]


def test_instructions_by_symbol():
    text = retired((MAIN, CALL), (F, OTHER), (F + 4, OTHER), (F + 8, BACK), (MAIN + 4, OTHER), (0x20000, OTHER))
    assert table(text + "limit 6\nretired 6\n") == [
        ["instructions", "share", "symbol"],
        ["3", "50.0%", "f"],
        ["2", "33.3%", "main"],
        ["1", "16.7%", "(not", "listed)"],
        ["6", "100.0%", "(all)"],
    ]


def test_a_call_and_its_return():
    text = retired((MAIN, CALL), (F, OTHER), (F + 4, BACK), (MAIN + 4, OTHER))
    assert folded(text) == ["main 2", "main;f 2"]


def test_a_call_whose_caller_has_ended():
    text = retired((MAIN, CALL), (F, JUMP), (G, OTHER), (G + 4, BACK), (MAIN + 4, OTHER))
    assert folded(text) == ["main 2", "main;f 1", "main;g 2"]


def test_a_call_by_the_other_link_within_a_call():
    text = retired((MAIN, CALL), (F, CALL_BY_X5), (G, BACK_BY_X5), (F + 4, BACK), (MAIN + 4, OTHER))
    assert folded(text) == ["main 2", "main;f 2", "main;f;g 1"]


def test_recursion_and_a_loop():
    text = retired((MAIN, CALL), (F, CALL), (F, BACK), (F + 4, JUMP), (F + 4, BACK), (MAIN + 4, JUMP), (MAIN + 4, JUMP))
    assert folded(text) == ["main 3", "main;f 3", "main;f;f 1"]


def test_a_long_jump():
    text = retired((MAIN, CALL), (F, CALL), (G, BACK), (MAIN + 12, OTHER))
    assert folded(text) == ["main 2", "main;f 1", "main;f;g 1"]


def test_a_report_that_breaks_off():
    text = retired((MAIN, OTHER), (MAIN + 4, OTHER))
    assert table(text[:-3])[1] == ["1", "100.0%", "main"]


@pytest.mark.parametrize("block", (1, 50, 1000))
def test_reading_in_blocks(monkeypatch, block):
    monkeypatch.setattr("cfpp_tools.profiling.shown.BLOCK", block)
    text = retired((MAIN, CALL), (F, OTHER), (F + 4, OTHER), (F + 8, BACK), *[(MAIN + 4, OTHER)] * 20)
    assert folded(f"{text}exit 0\nretired 24\n") == ["main 21", "main;f 3"]
    assert table(f"{text}exit 0\nretired 24\n")[1:] == [["21", "87.5%", "main"], ["3", "12.5%", "f"], ["24", "100.0%", "(all)"]]


@pytest.mark.parametrize("cut", (1, 7, 50, 1 << 20))
def test_moves_by_address(examples, monkeypatch, cut):
    """Of the first instruction six moves: it was issued, climbed, met a value, was executed, sent its result, which fell. Of the second
    three: it was issued, met that result and was executed. One value came from the register file."""
    monkeypatch.setattr("cfpp_tools.profiling.shown.BLOCK", cut)
    counts = Counts()
    with open(examples / "traces" / "garnering.trace", "rb") as file:
        for some in shown(file):
            counts.add(some)
    assert counts.moves.counts == {b"00010000": 6, b"00010004": 3, REGISTER_FILE: 1} and not counts.words


def test_operations_in_sidings():
    """A load: its operation slides on, is answered and recovered, all of one instruction."""
    text = """move 1 issue next
fetch 00010004
lane -
stage 1 instruction | 00010000 next new x01=00010000 - x02=? -
move 2 launch 1
fetch 00010004
lane -
stage 1 instruction | 00010000 next out x01=00010000 - x02=? -
siding 0 00010000 -
move 3 slide 0 0
fetch 00010004
lane -
stage 1 instruction | 00010000 next out x01=00010000 - x02=? -
siding 0 - 00010000
move 4 access
fetch 00010004
lane -
stage 1 instruction | 00010000 next out x01=00010000 - x02=? -
siding 0 - 00010000*
"""
    counts = Counts()
    for some in shown(io.BytesIO(text.encode())):
        counts.add(some)
    assert counts.moves.counts == {b"00010000": 4}


@pytest.mark.parametrize(
    "text, line",
    (
        ("retire 1 00010000 00000513 -\nlame\n", "line 2: no line of a report: 'lame'"),
        ("move 2 issue next\nlane -\nstage 1 instruction | 00010000 next new - - - -\n", "line 1: move 1 is missing"),
        ("move 1 climb 1\nfetch 00010004\nlane -\n", "line 1: the pictures do not show whose the move climb is"),
        ("move 1 fall 2\nfetch 00010004\nlane -\n", "line 1: the pictures do not show whose the move fall is"),
        ("move 1 emit\nlane -\nstage 2 result | x01=00000000\nmove 2 fall 1\nlane -\n", "line 4: the pictures do not show whose"),
        ("move 1 frob\nfetch 00010004\nlane -\n", "line 1: the pictures do not show whose the move frob is"),
        ("move 1 emit\nlane -\nstage 2 result | x01=00000000\nframe\n", "line 4: no line of a report: 'frame'"),
    ),
)
def test_what_is_no_report(text, line):
    with pytest.raises(ReadFault) as refusal:
        table(text)
    assert str(refusal.value).startswith(line)


def test_calls_without_instructions():
    calls = Calls(SYMBOLS)
    calls.add([])
    assert not list(calls.folded())


def test_the_table_of_a_program(tools, examples, built):
    """Two instructions of a flat image, which has no labels."""
    made = subprocess.run(
        [tools / "profile", examples / "seven.bin"],
        input=retired((0x10000, OTHER), (0x10004, OTHER)),
        capture_output=True,
        text=True,
        check=True,
    )
    assert [line.split() for line in made.stdout.splitlines()] == [
        ["instructions", "share", "symbol"],
        ["2", "100.0%", "(no", "label)"],
        ["2", "100.0%", "(all)"],
    ]


def test_a_report_that_shows_nothing(tools, examples, built):
    made = subprocess.run([tools / "profile", examples / "seven.bin"], input="exit 0\n", capture_output=True, text=True, check=False)
    assert made.returncode == 1 and "tools/profile: the report shows no instruction and no move" in made.stderr
