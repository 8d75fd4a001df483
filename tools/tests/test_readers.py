"""Each reader takes the texts of docs/MANUAL.md and docs/TIMES.md, and refuses what has not their form."""

from __future__ import annotations

import pytest

from cfpp_tools.readers.audits import AuditReport, read_audit
from cfpp_tools.readers.endings import read_ending
from cfpp_tools.readers.layouts import Siding, read_layout
from cfpp_tools.readers.lines import Lines, ReadFault
from cfpp_tools.readers.listings import read_listing
from cfpp_tools.readers.moves import Choice, Move, read_choices, read_move
from cfpp_tools.readers.pictures import Binding, Instruction, Operation, Result, Stage, read_picture
from cfpp_tools.readers.registers import read_registers
from cfpp_tools.readers.reports import plain, read_report
from cfpp_tools.readers.retirements import Retirement, read_retirements
from cfpp_tools.readers.runs import RunReport, read_run
from cfpp_tools.readers.sessions import Automatic, Bound, Bytes, Moved, RefusedCommand, SessionReport, read_session
from cfpp_tools.readers.tallies import Tally, read_tally
from cfpp_tools.readers.times import Latency, TimedMove, Use, read_times
from cfpp_tools.readers.traces import read_groups, read_trace


def test_moves_that_can_be_made(quoted):
    found = read_choices(Lines(quoted("MANUAL.md", "barred issue next Occupied")))
    assert found == (
        Choice(Move("issue next", "issue"), "Occupied"),
        Choice(Move("execute 2", "execute", stage=2), "SourceMissing x10"),
        Choice(Move("climb 1", "climb", stage=1)),
    )


def test_a_picture(quoted):
    picture = read_picture(Lines(quoted("MANUAL.md", "fetch 00010008")))
    assert (picture.fetch, picture.lane, picture.cache) == (0x10008, (), None)
    assert picture.stages == {
        4: Stage(Instruction(0x10000, "next", "done", (None, None), None, None)),
        3: Stage(Instruction(0x10004, "next", "dead-out", (None, None), Binding(1, None), None)),
        2: Stage(None, Result("turn", value=0x10008)),
    }
    assert picture.sidings == {1: (Operation(0x10004, False), None)}


def test_the_rest_of_a_picture():
    text = "fetch wait\nlane x02 x01\ncache x05=0000002a\nstage 1 complete | 00010004 to:00010000 done - x03=00000001 - - | halt\n"
    picture = read_picture(Lines(text + "siding 0 - 00010000*\n"))
    assert (picture.fetch, picture.lane, picture.cache) == (None, (2, 1), (Binding(5, 42),))
    assert picture.stages[1].met and picture.stages[1].result == Result("halt")
    assert picture.sidings == {0: (None, Operation(0x10000, True))}


@pytest.mark.parametrize("line", ["stage 1 full | 00010004 next new - - - -", "stage 1 instruction | 00010004 odd new - - - -"])
def test_a_picture_with_a_fault(line):
    with pytest.raises(ReadFault, match="^line 3: "):
        read_picture(Lines(f"fetch wait\nlane -\n{line}\n"))


def test_retired_instructions(quoted):
    text = quoted("MANUAL.md", "retire 1 00010000 00700513")
    assert read_retirements(Lines(text)) == (Retirement(1, 0x10000, 0x00700513, 10, 7),)
    assert read_retirements(Lines("retire 2 00010004 00000073 -\n")) == (Retirement(2, 0x10004, 0x73),)


def test_a_move_of_a_trace(quoted):
    text = quoted("MANUAL.md", "move 6 leave").replace("move 6", "move 1")
    (group,) = read_groups(Lines(text))
    assert (group.number, group.line, group.move) == (1, 1, Move("leave", "leave"))
    assert group.retirement == Retirement(1, 0x10000, 0x00700513, 10, 7)
    assert (group.picture.fetch, group.picture.is_empty) == (0x10004, True)
    with pytest.raises(ReadFault, match="^line 1: move 1 is missing"):
        read_groups(Lines(quoted("MANUAL.md", "move 6 leave")))


def test_a_trace_before_its_report(quoted):
    trace = quoted("MANUAL.md", "move 6 leave").replace("move 6", "move 1")
    assert read_trace(trace + "limit 1\nretired 1\n")[0] == trace


def test_all_kinds_of_moves():
    assert read_move("issue to 0001000c").kind == "issue"
    assert read_move("slide 0 1") == Move("slide 0 1", "slide", siding=0, cell=1)
    for text in ("issue", "climb", "climb 01", "slide 0", "jump 1", "emit 1"):
        with pytest.raises(ReadFault):
            read_move(text)


def test_the_lines_that_count():
    assert read_tally(Lines("moves 25\nmeets 1\nkills 0\ndead 1\n")) == Tally(25, 1, 0, 1)


def test_registers(examples):
    text = (examples / "scripts" / "wrong_guess.report").read_text()
    report = read_report(text)
    assert isinstance(report, RunReport)
    assert report.registers is not None and report.registers[2] == 0x7F0FFFF0 and len(report.registers) == 32
    assert (report.ending.kind, report.ending.number, report.retired) == ("script end", 25, 1)
    with pytest.raises(ReadFault, match="line 1: no line of registers"):
        read_registers(Lines("x00=00000000 x01=00000000\n"))


def test_rounds(quoted):
    registers = "".join(" ".join(f"x{r:02}=00000000" for r in range(a, a + 4)) + "\n" for a in range(0, 32, 4))
    text = f"exit 7\nretired 2\nrounds 14\nmoves 18\nmeets 2\nkills 0\ndead 0\n{registers}fetch wait\nlane -\n"
    report = read_run(Lines(text))
    assert (report.rounds, report.tally) == (14, Tally(18, 2, 0, 0))


def test_times(quoted):
    text = quoted("MANUAL.md", "plain: exit 0 time T moves M retired R")
    text = text.replace(" T ", " 45042 ").replace(" M ", " 142407 ").replace(" R\n", " 2213\n")
    report = read_times(Lines(text))
    assert [(run.layout, run.time, run.moves, run.retired) for run in report.runs] == [
        ("plain", 45042, 142407, 2213),
        ("examples/layouts/tiny.toml", 45042, 142407, 2213),
    ]
    assert report.least == "examples/layouts/tiny.toml"


def test_the_moves_of_a_timed_run(quoted):
    text = quoted("MANUAL.md", "move 1 from 0 to 1 issue next")
    (run,) = read_times(Lines(text)).runs
    assert run.made == (
        TimedMove(1, 0, 1, Move("issue next", "issue")),
        TimedMove(2, 1, 2, Move("climb 1", "climb", stage=1)),
        TimedMove(3, 2, 3, Move("leave", "leave")),
    )
    assert (run.layout, run.ending.cause, run.time, run.moves, run.retired) == ("tiny.toml", 1, 3, 3, 0)
    assert read_report(text) == read_times(Lines(text))
    # Each layout counts its moves from 1.
    both = text.replace("least tiny.toml\n", "") * 2 + "least tiny.toml\n"
    assert [run.made for run in read_times(Lines(both)).runs] == [run.made] * 2


@pytest.mark.parametrize(
    "old, new, reason",
    [
        ("move 2 from 1 to 2 climb 1\n", "", "line 2: move 2 is missing"),
        ("from 1 to 2", "from 2 to 2", "line 2: the move takes no time"),
        ("climb 1", "climb", "line 2: `climb` is not a move"),
        ("tiny.toml: trap", "tiny.toml trap", "line 4: no line of a layout"),
    ],
)
def test_moves_of_a_timed_run_with_a_fault(quoted, old, new, reason):
    with pytest.raises(ReadFault, match=f"^{reason}"):
        read_times(Lines(quoted("MANUAL.md", "move 1 from 0 to 1 issue next").replace(old, new, 1)))


TWO_STAGES = """tiny.toml: exit 7 time 35 moves 19 retired 2
stage 2 busy 31
stage 1 busy 15
siding 0 busy 0
moves issue=3 climb=3 fall=1 meet=2 execute=2 send=2 leave=3 exit=2 serve=1
chain issue=2 climb=3 fall=1 meet=2 execute=1 send=2 leave=1 exit=1 serve=1
least tiny.toml
"""


def test_what_a_time_is_made_of():
    (run,) = read_times(Lines(TWO_STAGES)).runs
    assert run.sites is not None and run.sites.stages == {2: Use(31), 1: Use(15)} and run.sites.sidings == {0: 0}
    assert run.sites.moves["leave"] == 3 and run.sites.chain["leave"] == 1
    assert sum(run.sites.moves.values()) == run.moves == 19


def test_what_waits_and_how_long_instructions_took():
    """The use of a stage makes up the time."""
    text = TWO_STAGES.replace("busy 31", "busy 31 waiting 3 empty 1").replace("busy 15", "busy 15 waiting 0 empty 20")
    (run,) = read_times(Lines(text.replace("chain ", "add retired 1 ticks 9\nserial retired 1 ticks 24\nchain "))).runs
    assert run.sites is not None and run.sites.stages == {2: Use(31, 3, 1), 1: Use(15, 0, 20)}
    assert run.sites.latencies == {"add": Latency(1, 9), "serial": Latency(1, 24)}


def test_the_answers_of_audit():
    assert read_audit(Lines("trace of 40 moves\n")) == AuditReport(40)
    ending = read_audit(Lines("bad trace line 12: Barred SourceMissing x10\n")).ending
    assert ending is not None and (ending.line, ending.reason, ending.status) == (12, "Barred SourceMissing x10", 132)


def test_the_layout_plain(quoted):
    lines = quoted("MANUAL.md", "format = 1") + "\n" + quoted("MANUAL.md", "[units]") + "\n" + quoted("MANUAL.md", "[[siding]]")
    layout = read_layout(Lines(lines))
    assert (layout.stages, layout.lane, layout.cache, layout.units["add"]) == (8, 16, False, (2, 4, 6))
    assert layout.sidings == (Siding(("memory",), 4, 6, 2),) and layout.memory == 0 and layout.cells == 2


def test_a_listing():
    listing = read_listing(Lines("$xrv32i:\n_start:\n00010000 00700513 addi x10, x0, 7\n00010004 00000073 ecall\n"))
    assert (listing[0x10000].text, listing[0x10000].place) == ("addi x10, x0, 7", "_start")
    assert (listing[0x10004].word, listing[0x10004].place) == (0x73, "_start+0x4")
    with pytest.raises(ReadFault, match="line 1: neither a label nor an instruction"):
        read_listing(Lines("lame\n"))


def test_the_debugger():
    report = read_session(Lines("moved\n? NothingKept\nauto 3\nbound 11\n7f0ffff0 00 ff\nlimit\n"))
    assert report.answers == (Moved(), RefusedCommand("NothingKept"), Automatic(3), Bound(11), Bytes(0x7F0FFFF0, (0, 255)))
    assert report.ending is not None and report.ending.status == 121


@pytest.mark.parametrize(
    "line, status",
    [
        ("exit 7", 7),
        ("trap 4 at 00010000 detail 00000002", 120),
        ("limit 1000", 121),
        ("script end after 25 moves", 0),
        ("bad words at 2", 122),
        ("bad layout: Refused ControlAboveMemory branch 5 4", 123),
        ("bad program: Elf NeedsCompressed", 124),
        ("bad script line 3: UnknownMove", 125),
        ("barred at line 9: SourceMissing x10", 126),
        ("bad source line 2: Text OutOfRange 5000", 127),
        ("read fault script", 128),
        ("write fault output", 129),
        ("no memory", 130),
        ("bad delays line 1: KindTwice", 131),
        ("bad trace: TooLong", 132),
        ("bad input: TooLong", 137),
        ("bad log line 7: Barred NotMet", 134),
        ("log end after 2 moves", 135),
    ],
)
def test_endings(line, status):
    ending = read_ending(line)
    assert ending is not None and (ending.status, ending.text) == (status, line)
    assert read_ending(line + " more") is None or ending.reason


def test_a_reason_with_a_line_feed():
    report = read_report('bad layout: UnknownKey a\nb\n')
    assert isinstance(report, RunReport) and report.ending.reason == "UnknownKey a\nb"


def test_no_report():
    assert read_report("") == SessionReport(())
    with pytest.raises(ReadFault, match="line 2"):
        read_report("exit 7\nlame\n")
    with pytest.raises(ReadFault, match="line 1: the line has no end"):
        read_report("exit 7")


def test_plain_values():
    assert plain(Tally(1, 2, 3, 4)) == {"type": "Tally", "moves": 1, "meets": 2, "kills": 3, "dead": 4}
    assert plain({1: (Bound(2), None)}) == {"1": [{"type": "Bound", "moves": 2}, None]}
