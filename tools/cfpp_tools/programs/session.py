"""A session of the debugger at a terminal: a prompt for each command, and the answers with the texts of instructions.

    tools/session CFPP LAYOUT PROGRAM

CFPP is the file of the simulator. Each line that is typed is given to `cfpp debug LAYOUT PROGRAM` as it is. Its answers are shown as
they are, with a note after each line that names an instruction, with what changed since the last picture in bold, and with what is
barred in red; the variable NO_COLOR, or TERM=dumb, leaves bold and red out. It ends with the status of the simulator.
"""

from __future__ import annotations

import signal
import subprocess
import sys
from typing import IO, Iterator, Sequence

from .. import command_line
from ..decorating import Decorator, has_colours
from ..readers.lines import Lines, ReadFault
from ..readers.listings import read_listing
from .annotate import Listing

PROMPT = "(cfpp) "
# A line that is too long is always answered by this one line, and changes nothing: so the answers before it are complete.
LONGEST = 256
END_OF_ANSWERS, ANSWER_AT_END = " " * (LONGEST + 1), "? TooLong"


def listing_of(simulator: str, program: str) -> Listing:
    """The listing of the program, which is empty where there is none."""
    made = subprocess.run([simulator, "list", program], stdin=subprocess.DEVNULL, capture_output=True, check=False)
    try:
        return read_listing(Lines(made.stdout.decode(errors="replace")))
    except ReadFault:
        return {}


class Session:
    """A simulator that answers commands."""

    def __init__(self, arguments: Sequence[str], decorator: Decorator) -> None:
        self.process = subprocess.Popen(arguments, stdin=subprocess.PIPE, stderr=subprocess.PIPE)
        self.decorator = decorator

    def pipe(self, which: "IO[bytes] | None") -> "IO[bytes]":
        assert which is not None
        return which

    def say(self, line: str) -> None:
        """Gives a line to the simulator, which may have ended."""
        try:
            self.pipe(self.process.stdin).write(line.encode(errors="surrogateescape") + b"\n")
            self.pipe(self.process.stdin).flush()
        except BrokenPipeError:
            pass

    def lines(self) -> Iterator[str]:
        """The lines of the report as they come."""
        for line in self.pipe(self.process.stderr):
            yield line.decode(errors="replace").rstrip("\n")

    def answers(self, ends: int) -> bool:
        """Shows the answers up to the last of this many lines that are too long; false where the report ended before."""
        for line in self.lines():
            ends -= line == ANSWER_AT_END
            if ends == 0:
                return True
            print(self.decorator.decorated(line), file=sys.stderr, flush=True)
        return False

    def ask(self, line: str) -> bool:
        """Gives a line to the simulator and shows the answers to it; false where the session ended."""
        self.say(line)
        self.say(END_OF_ANSWERS)
        is_long = len(line.encode(errors="surrogateescape").removesuffix(b"\r")) > LONGEST
        return self.answers(2 if is_long else 1)

    def close(self) -> int:
        """Ends the commands, shows what is left of the report, and gives the status."""
        try:
            self.pipe(self.process.stdin).close()
        except BrokenPipeError:
            pass
        self.answers(0)
        status = self.process.wait()
        return status if status >= 0 else 128 - status


def typed() -> Iterator[str]:
    """The lines that are typed, each after a prompt."""
    while True:
        print(PROMPT, end="", file=sys.stderr, flush=True)
        line = sys.stdin.readline()
        if not line:
            print(file=sys.stderr)
            return
        yield line.removesuffix("\n")


def main(given: Sequence[str]) -> int:
    parser = command_line.parser("tools/session", __doc__)
    for name in ("CFPP", "LAYOUT", "PROGRAM"):
        parser.add_argument(name.lower(), metavar=name)
    arguments = parser.parse_args(given)
    # The simulator may end before it has read its commands; what it says then is still shown.
    signal.signal(signal.SIGPIPE, signal.SIG_IGN)
    decorator = Decorator(listing_of(arguments.cfpp, arguments.program), has_colours())
    session = Session([arguments.cfpp, "debug", arguments.layout, arguments.program], decorator)
    session.say(END_OF_ANSWERS)
    if session.answers(1):
        print("cfpp: moves and commands, one a line; type help", file=sys.stderr)
        for line in typed():
            if not session.ask(line):
                break
    return session.close()
