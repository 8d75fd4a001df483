"""A trace as a log: what is passed on to `conform`, and what is checked before; and the answer of `conform`."""

from __future__ import annotations

import pytest

from cfpp_tools.readers.conforms import read_conform
from cfpp_tools.readers.layouts import Layout, Siding
from cfpp_tools.readers.lines import Lines, ReadFault
from cfpp_tools.readers.moves import read_move
from cfpp_tools.readers.traces import read_trace
from cfpp_tools.tracing.conforming import log_of

TWO_STAGES = Layout(2, 4, False, {"add": (1, 2)}, (Siding(("memory",), 1, 2, 2),))
RETIRED = "retire 1 00010000 00000013 -"
TRACE = f"""move 1 issue next
fetch 00010004
lane -
stage 2 instruction | 00010000 next done - - - -
siding 0 - 00010000*
move 2 leave
{RETIRED}
fetch 00010004
lane -
"""
CLOSING = """retired 0
observed 1
moves 2
meets 0
kills 0
dead 0
""" + "".join(
    " ".join(f"x{register:02}=00000000" for register in range(first, first + 4)) + "\n" for first in range(0, 32, 4)
)


def passed_on(text):
    text, groups = read_trace(text)
    return list(log_of(text, groups, TWO_STAGES))


def test_what_a_picture_does_not_show_is_empty():
    lines = [(at, line) for at, line in enumerate(TRACE.splitlines(), 1)]
    assert passed_on(TRACE) == [
        *lines[:5],
        (5, "stage 1 empty"),
        *lines[5:],
        (9, "stage 2 empty"),
        (9, "stage 1 empty"),
        (9, "siding 0 - -"),
    ]


@pytest.mark.parametrize(
    "old, new",
    [(f"{RETIRED}\n", ""), ("next done", "next trap"), ("next done", "next dead"), ("move 2 leave", "move 2 exit")],
)
def test_a_line_of_a_retired_instruction_is_there_if_and_only_if_one_retires(old, new):
    with pytest.raises(ReadFault, match="^line 6: "):
        passed_on(TRACE.replace(old, new))


def test_a_log_with_a_barred_move():
    report = read_conform(Lines(f"bad log line 7: Barred NotMet\nallowed climb 1\n{CLOSING}fetch wait\nlane -\n"))
    assert (report.ending.kind, report.ending.line, report.ending.reason) == ("bad log", 7, "Barred NotMet")
    assert [choice.move for choice in report.choices] == [read_move("climb 1")]
    assert (report.expected, report.observed, report.tally.moves) == (None, 1, 2)


def test_a_log_with_a_line_that_differs():
    report = read_conform(Lines(f"bad log line 7: Differs\nexpected stage 1 empty\n{CLOSING}fetch wait\nlane -\n"))
    assert (report.choices, report.expected) == ((), "stage 1 empty")


def test_a_log_that_ends():
    report = read_conform(Lines(f"log end after 2 moves\nallowed emit\n{CLOSING}fetch wait\nlane x01\n"))
    assert (report.ending.kind, report.ending.status, report.ending.number) == ("log end", 135, 2)
    assert report.picture.lane == (1,)
