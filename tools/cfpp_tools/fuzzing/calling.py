"""Calls the program in a directory of its own, and sees how long it takes and how much memory."""

from __future__ import annotations

import os
import pathlib
import signal
import subprocess
import time
from typing import List

from ..program import Name
from .judging import RECORDED, SECONDS, Call


class Caller:
    """Calls one program in one directory."""

    def __init__(self, program: str, folder: Name) -> None:
        self.program = program
        self.folder = pathlib.Path(folder)

    def is_recorded(self, arguments: List[str]) -> bool:
        """Whether a call judges a trace as it was recorded: `audit` the file that it names last, `conform` its input."""
        judged = {"audit": arguments[-1], "conform": "input"}.get(arguments[0], "") if arguments else ""
        files = [self.folder / RECORDED, self.folder / judged]
        return all(file.is_file() for file in files) and files[0].read_bytes() == files[1].read_bytes()

    def call(self, arguments: List[str]) -> Call:
        """A call on the guest's input, the debugger's commands or a log, in the file `input`."""
        call = Call(arguments, is_recorded=self.is_recorded(arguments))
        guest_name = self.folder / "input"
        with open(guest_name if guest_name.exists() else os.devnull, "rb") as guest, open(
            self.folder / "output", "wb"
        ) as output, open(self.folder / "report", "wb") as report:
            started = subprocess.Popen(
                [self.program, *arguments], cwd=self.folder, stdin=guest, stdout=output, stderr=report, start_new_session=True
            )
            wait(started, call)
        call.report = (self.folder / "report").read_bytes().decode(errors="surrogateescape")
        call.output_size = (self.folder / "output").stat().st_size
        return call


def wait(started: "subprocess.Popen[bytes]", call: Call) -> None:
    """Waits for the call's end, or ends it."""
    end = time.monotonic() + SECONDS
    pause = 0.0005
    while True:
        ended, status, usage = os.wait4(started.pid, os.WNOHANG)
        if ended:
            started.returncode = call.status = os.waitstatus_to_exitcode(status)
            call.memory = usage.ru_maxrss << 10
            return
        if time.monotonic() > end:
            os.kill(started.pid, signal.SIGKILL)
            os.wait4(started.pid, 0)
            started.returncode = -signal.SIGKILL
            return
        time.sleep(pause)
        pause = min(2 * pause, 0.05)
