"""The functions for the commands of the program, each with a typed answer. What the runs do was worked out by hand, or by qemu-riscv32."""

from __future__ import annotations

import cfpp_tools


def test_a_run_and_the_machine_agree(examples, built):
    """`seven` sets x10 and x17, and ends with 7."""
    seven, tiny = examples / "seven.bin", examples / "layouts" / "tiny.toml"
    machine, run, rounds = cfpp_tools.machine(seven), cfpp_tools.run(tiny, seven), cfpp_tools.rounds(tiny, seven)
    for answer in (machine, run, rounds):
        assert (answer.status, answer.output, answer.report.ending.text) == (7, b"", "exit 7")
        assert (answer.report.retired, answer.report.registers[10], answer.report.registers[17]) == (2, 7, 93)
    assert machine.report.tally is None and run.report.picture.stages and rounds.report.rounds


def test_what_a_guest_reads_and_writes(examples, built):
    given = examples / "reversed.input"
    wanted = (examples / "reversed.expected").read_bytes()
    assert cfpp_tools.machine(examples / "reversed.bin", given=given).output == wanted
    assert cfpp_tools.run("plain", examples / "reversed.bin", given=given.read_bytes()).output == wanted


def test_how_far_a_run_has_come(examples, built):
    """`seven` retires two instructions."""
    seven, tiny = examples / "seven.bin", examples / "layouts" / "tiny.toml"
    for answer in (cfpp_tools.machine(seven, every=1), cfpp_tools.run(tiny, seven, every=1), cfpp_tools.rounds(tiny, seven, every=1)):
        assert [progress.retired for progress in answer.report.progress] == [1, 2]


def test_the_input_of_a_timed_run(examples, built):
    """More bytes to reverse take more instructions."""
    delays, reversing = examples / "delays" / "equal.delays", examples / "reversed.bin"
    retired = [
        cfpp_tools.time(delays, reversing, ["plain"], given=given).report.runs[0].retired
        for given in (None, examples / "reversed.input")
    ]
    assert retired[0] < retired[1]


def test_what_a_run_shows(examples, built):
    """The script of lesson 1: ten moves, of which the fifth is the first meeting."""
    tiny, garnering = examples / "layouts" / "tiny.toml", examples / "scripts" / "garnering.bin"
    script = examples / "scripts" / "garnering.script"
    report = cfpp_tools.run(tiny, garnering, script=script, show="moves").report
    assert len(report.groups) == 10 and report.groups[4].move.text == "meet 2"
    assert report.ending.kind == "script end" and report.picture.lane == (1,)
    assert len(cfpp_tools.moves(tiny, garnering, script).report.choices) > 1


def test_a_log(examples, built):
    """A script is a log of its moves. At the start nothing can be made but an issue."""
    tiny, garnering = examples / "layouts" / "tiny.toml", examples / "scripts" / "garnering.bin"
    script = (examples / "scripts" / "garnering.script").read_bytes()
    assert cfpp_tools.conform(tiny, garnering, script).report.ending.text == "log end after 10 moves"
    wrong = cfpp_tools.conform(tiny, garnering, b"climb 1\n")
    assert (wrong.status, wrong.report.ending.reason) == (134, "Barred NoPassenger")
    assert [choice.move.text for choice in wrong.report.choices] == ["issue next"]


def test_times_and_sessions(examples, built):
    seven = examples / "seven.bin"
    times = cfpp_tools.time(examples / "delays" / "equal.delays", seven, ["plain"]).report
    assert (times.runs[0].layout, times.runs[0].retired, times.least) == ("plain", 2, "plain")
    session = cfpp_tools.debug("plain", seven, ["issue next", "leave"]).report
    assert len(session.answers) == 2 and session.ending is None


def test_programs_that_are_drawn(built):
    """The digits are those of a second model (tools/checks)."""
    assert "\n_start:\n" in cfpp_tools.generate(3)
    run = cfpp_tools.run_generated(20000)
    assert (run.output, run.report.retired) == (b"70bd6d93\n", 19328)


def test_help(built):
    assert "cfpp conform LAYOUT PROGRAM" in cfpp_tools.help_text() and "--seed" in cfpp_tools.help_text("run")
