#!/usr/bin/env python3
"""Compares the table of commands with what the program says of itself, and prints what is missing in one of them.

    against_help.py PROGRAM

The help has a line for each command, option and status; what it says of an option names, in brackets, the commands that take it. Where the
program has a text on a single command, that names its options and no others.
"""
import pathlib
import re
import subprocess
import sys

sys.dont_write_bytecode = True
sys.path.insert(0, str(pathlib.Path(__file__).resolve().parent.parent))

from releasing import table as tables

CALL = re.compile(r"^  cfpp (?P<call>\S+(?: \S+)*)(?:  +(?P<does>.*))?$")
OPTION = re.compile(r"^  (?P<call>--\S+(?: \S+)?)  +(?P<does>.*)$")
# The values of an option whose value is in capitals: its text begins with them.
VALUES = re.compile(r"^([a-z]+(?:(?:, | or )[a-z]+)+):")
STATUS = re.compile(r"(\d+) +(\S+(?: \S+)*)")
TAKEN = re.compile(r" \(([a-z, ]+)\)")


def said_by(program, *arguments):
    done = subprocess.run([program, *arguments], capture_output=True, text=True, check=False)
    return done.stdout if done.returncode == 0 else None


def joined(text):
    """The lines of the help, where what goes on in the next line is part of the line."""
    return re.sub(r"(?<=\S)\n {16,}(?=\S)", "  ", text).splitlines()


def calls_in(line):
    """The commands of a line, each with its operands and without the option that it has to have."""
    found = CALL.match(line)
    return [] if not found else [call.removeprefix("cfpp ").partition(" --")[0] for call in found["call"].split(", ")]


def options_in(line):
    """The options of a line, as the option with each command that takes it."""
    found = OPTION.match(line)
    does = re.sub(r" +", " ", found["does"]) if found else ""
    commands = [command for taken in TAKEN.findall(does) for command in taken.split(", ")]
    return [f"{call} of {command}" for command in commands for call in with_values(found["call"], does)]


def with_values(call, does):
    """The option with each value that its text begins with, as in `any, next or wait: how ..`; else the option as it is written."""
    values = VALUES.match(does)
    return [call] if not values else [f"{call.partition(' ')[0]} {value}" for value in re.split(", | or ", values[1])]


def statuses_in(text):
    """The statuses, which are in two columns below the line that begins their table."""
    part = text.partition("or with one of these:")[2].partition("\n\n")[2].partition("\n\n")[0]
    return [f"{number} {why}" for number, why in STATUS.findall(part)]


def of_help(text):
    lines = joined(text)
    found = {f"command {call}" for line in lines for call in calls_in(line)}
    found |= {f"option {option}" for line in lines for option in options_in(line)}
    return found | {f"status {status}" for status in statuses_in(text)}


def of_table(table):
    found = {f"command {command.call}" for command in table.commands}
    found |= {f"option {option.call} of {command}" for option in table.options for command in option.commands}
    return found | {f"status {status.number} {status.why}" for status in table.statuses}


def of_single(program, table):
    """What the help of a command has otherwise than the table, where the program has such help."""
    for command in table.commands:
        text = said_by(program, "help", command.name) or ""
        named = set(re.findall(r"--[a-z]+", text))
        listed = {option.name for option in table.options_of(command.name)}
        if text and not command.name.startswith("-") and named != listed:
            yield f"cfpp help {command.name} and the table differ: {' '.join(sorted(named ^ listed))}"


def main():
    if len(sys.argv) != 2:
        sys.exit(__doc__)
    program, table = sys.argv[1], tables.read()
    helped, listed = of_help(said_by(program, "help")), of_table(table)
    faults = [f"cfpp help has it, and not the table: {it}" for it in sorted(helped - listed)]
    faults += [f"the table has it, and not cfpp help: {it}" for it in sorted(listed - helped)]
    faults += of_single(program, table)
    print(*faults, sep="\n", end="\n" * bool(faults))
    sys.exit(bool(faults))


main()
