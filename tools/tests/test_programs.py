"""The programs of tools/, each called as a user calls it."""

from __future__ import annotations

import json
import os
import subprocess

import pytest

NAMES = "annotate audits commands explore fuzz grade memory_answers orders plot profile report session sweep trace".split()
OF_THE_REPOSITORY = "against_qemu checks compile edits expensive language names numbers program prove refusals release rests_on".split()
NOT_INSTALLED = ("audits", "commands", "fuzz", "memory_answers", "session")


def call(tools, name, *arguments, given=None, **more):
    return subprocess.run([tools / name, *arguments], input=given, capture_output=True, text=True, check=False, **more)


@pytest.mark.parametrize("name", NAMES)
def test_help(tools, name):
    made = call(tools, name, "--help")
    assert made.returncode == 0 and made.stdout.startswith(f"usage: tools/{name} ") and made.stderr == ""


@pytest.mark.parametrize("name", OF_THE_REPOSITORY)
def test_help_of_the_repository(tools, name):
    """It says how the tool is called, and does nothing else: a proof or a release would take minutes."""
    made = call(tools, name, "--help", timeout=20)
    assert made.returncode == 0 and f"    tools/{name}" in made.stdout and made.stderr == ""


def test_each_tool_has_help(tools):
    assert sorted(path.name for path in tools.iterdir() if os.access(path, os.X_OK) and path.is_file()) == sorted(NAMES + OF_THE_REPOSITORY)


@pytest.mark.parametrize("name", NAMES)
def test_help_of_what_pip_installs(tools, name):
    made = subprocess.run(["grep", "-c", f'"cfpp_tools.installed:{name}"', tools / "pyproject.toml"], capture_output=True, text=True)
    assert made.stdout.strip() == ("0" if name in NOT_INSTALLED else "1")


@pytest.mark.parametrize("name", NAMES)
def test_arguments_that_are_not_understood(tools, name):
    made = call(tools, name, "--frob")
    assert made.returncode == 2 and "usage: " in made.stderr


def test_a_report_as_json(tools, examples):
    text = (examples / "scripts" / "wrong_guess.report").read_text()
    found = json.loads(call(tools, "report", given=text).stdout)
    assert found["type"] == "RunReport" and found["tally"]["dead"] == 1 and found["picture"]["fetch"] == 0x1000C
    assert found["picture"]["stages"]["1"]["instruction"]["destination"] == {"type": "Binding", "register": 3, "value": None}
    times = json.loads(call(tools, "report", examples / "lab" / "slow_memory_times.report").stdout)
    assert times["least"] == "examples/layouts/tiny.toml" and times["runs"][0]["time"] == 45042


def test_no_report(tools):
    made = call(tools, "report", given="exit 7\nlame\n")
    assert made.returncode == 1 and made.stderr.startswith("tools/report: line 2: ") and made.stdout == ""


def test_a_trace_for_konata(tools, examples, built):
    tiny, garnering = examples / "layouts" / "tiny.toml", examples / "scripts" / "garnering.bin"
    made = call(tools, "trace", "konata", tiny, garnering, examples / "traces" / "garnering.trace")
    assert made.stdout == (examples / "traces" / "garnering.konata").read_text()


def test_an_audit_of_another_program_is_refused(tools, examples, built):
    tiny, killed = examples / "layouts" / "tiny.toml", examples / "scripts" / "killed.bin"
    made = call(tools, "trace", "csv", tiny, killed, examples / "traces" / "garnering.trace")
    assert made.returncode == 1 and "bad trace line " in made.stderr and made.stdout == ""


def test_orders_of_one_instruction(tools, examples, built):
    """By hand: 13 states and 16 moves, and three orders each with it executed below and above."""
    tiny, program = examples / "layouts" / "tiny.toml", examples / "scripts" / "two_orders.bin"
    made = call(tools, "orders", tiny, program, "--issues", "1")
    # Before it may be what ./cfpp says of a program that is not proved.
    assert made.stderr.splitlines()[-1] == "13 states, 16 moves, 1 end, 6 orders of 6 to 7 moves"
    assert made.stdout.count("->") == 16


def test_the_program_that_the_environment_names(tools, examples, tmp_path):
    made = call(tools, "orders", "plain", examples / "seven.bin", env={**os.environ, "CFPP": str(tmp_path / "none")})
    assert made.returncode == 1 and "the variable CFPP names no program" in made.stderr


def test_annotations(tools, tmp_path):
    listing = tmp_path / "listing"
    listing.write_text("main:\n00010000 00700513 addi x10, x0, 7\n00010004 00000073 ecall\n")
    trace = (
        "retire 1 00010000 00700513 x10=00000007\n"
        "stage 2 instruction | 00010004 next new - - - -\nstage 1 result | turn 00010000\n"
        "retire 2 00010004 00000000 -\nlane -\n"
    )
    assert call(tools, "annotate", listing, given=trace).stdout.splitlines() == [
        "retire 1 00010000 00700513 x10=00000007  # addi x10, x0, 7 (main)",
        "stage 2 instruction | 00010004 next new - - - -  # ecall (main+0x4)",
        "stage 1 result | turn 00010000",
        "retire 2 00010004 00000000 -  # not as listed",
        "lane -",
    ]
    made = call(tools, "annotate", listing, given="lane -\nlame -\n")
    assert made.stderr == "annotate: standard input, line 2: no line of a report: 'lame -'\n" and made.returncode == 1
