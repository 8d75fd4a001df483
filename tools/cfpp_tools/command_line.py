"""What all programs of this package do on their command line."""

from __future__ import annotations

import argparse
import os
import pathlib
import signal
import sys
from typing import Callable, NoReturn, Optional, Sequence

from .commands import Refused
from .program import NoProgram
from .readers.lines import ReadFault

Main = Callable[[Sequence[str]], Optional[int]]


class Stop(Exception):
    """What a program cannot go on with, as one line."""


def parser(name: str, text: Optional[str]) -> argparse.ArgumentParser:
    """A parser of arguments whose help is the text of the program. What pip installed has a name of its own."""
    first, _, rest = (text or "").partition("\n")
    started = pathlib.Path(sys.argv[0]).name
    return argparse.ArgumentParser(
        prog=started if started.startswith("cfpp-") else name, description=first, epilog=rest, formatter_class=argparse.RawDescriptionHelpFormatter
    )


def in_words(refusal: Exception) -> str:
    """Why something is refused; of a file, which one."""
    if isinstance(refusal, OSError) and refusal.filename is not None:
        return f"{os.fsdecode(refusal.filename)}: {refusal.strerror}"
    return str(refusal)


def start(name: str, main: Main) -> NoReturn:
    """Runs a program: what it refuses is one line on standard error. What reads its lines may stop before the last, as `head`
    does; and who runs it may interrupt it."""
    signal.signal(signal.SIGPIPE, signal.SIG_DFL)
    try:
        sys.exit(main(sys.argv[1:]))
    except KeyboardInterrupt:
        sys.exit(128 + signal.SIGINT)
    except (OSError, Stop, ReadFault, Refused, NoProgram) as refusal:
        sys.exit(f"{name}: {in_words(refusal)}")
