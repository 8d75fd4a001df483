"""Proves the crates and builds the program.

The crates are proved side by side, as many as there are processors and memory for, those with the longest chain above them first, and the
nearer to the longest the more of the processors.
"""
import contextlib
import os
import signal
import sys
import time

from building import kit, programs
from building.order import chains, places
from building.place import places_for
from building.programs import CACHE
from building.sources import CRATES, PROGRAM, TOP, all_below, crates_below, files_of

MADE = CRATES / PROGRAM / "out" / PROGRAM
# The program's status where it is called without arguments.
WITHOUT_WORDS = 122
# How nice a proof is that nothing else waits for.
NICEST = 19


class Progress:
    """The lines on standard error."""

    def __init__(self, total):
        self.total = total
        self.begun = 0
        self.start = time.monotonic()

    def begin(self, name):
        self.begun += 1
        if sys.stderr.isatty() or self.begun in (1, self.total):
            minutes = int(time.monotonic() - self.start) // 60
            line = f"proving crate {self.begun} of {self.total}: {name}, {minutes} min so far"
            print(line, file=sys.stderr, flush=True)


def stop(running):
    """Ends these proofs, each with all that it started."""
    for process, _ in running.values():
        with contextlib.suppress(ProcessLookupError):
            os.killpg(process.pid, signal.SIGTERM)
            process.wait()


def give_up(name):
    sys.stderr.write((CACHE / "log" / name).read_text(errors="replace"))
    sys.exit(f"cfpp: the simulator could not be built: {name} is not proved")


def prove(needed, running, free, processors):
    """Proves the crates, each after those that it uses; `running` has the proofs that have not ended, `free` the other places."""
    at_once = len(free)
    length, progress = chains(needed), Progress(len(needed))
    waiting, done = set(needed), set()
    while waiting or running:
        ready = [name for name in waiting if done.issuperset(needed[name])]
        ready = sorted(ready, key=lambda name: -length[name])[: len(free)]
        for name in ready:
            progress.begin(name)
            # The longest chain decides how long all takes, so its crate gets all processors, and leaves others what it cannot use.
            share = length[name] / max(map(length.get, waiting | running.keys()))
            jobs = processors if share == 1 else max(1, processors // (len(running) + len(ready)))
            place = free.pop()
            niceness = round(NICEST * (1 - share))
            running[name] = place.start(name, all_below(name, needed), min(jobs, at_once), niceness), place
            waiting.discard(name)
        time.sleep(0.1)
        for name, (process, place) in list(running.items()):
            status = process.poll()
            if status is not None:
                del running[name]
                if status != (WITHOUT_WORDS if name == PROGRAM else 0):
                    give_up(name)
                place.hand_over(name)
                free.append(place)
                done.add(name)


def stop_unless_made(needed):
    """Stops where the program beside the crate is older than a source, as it is where the gate failed or something changed since."""
    sources = [TOP / "crates.txt", *(path for name in needed for path in files_of(name))]
    if not MADE.exists() or MADE.stat().st_mtime < max(path.stat().st_mtime for path in sources):
        sys.exit("cfpp: the gate has built no program of these sources")


def prove_all(needed):
    """Proves all crates and builds the program."""
    running = {}
    (CACHE / "log").mkdir(exist_ok=True)
    at_once, processors = places()
    with places_for(needed, at_once) as free:
        try:
            prove(needed, running, free, processors)
        finally:
            stop(running)


def prove_program(of_gate):
    """Keeps the proved program of the sources as they are; where it comes from the gate, nothing is proved here.

    The gate has the program without its object where an earlier run of it proved the same files. A release needs the object.
    """
    with programs.alone("proving"):
        needed = crates_below(PROGRAM)
        name = programs.proved_name(needed)
        wanted = [name] if of_gate else [name, f"{name}{programs.OBJECT}"]
        if not all((CACHE / it).exists() for it in wanted):
            if of_gate:
                stop_unless_made(needed)
            else:
                kit.folder()
                prove_all(needed)
            if name != programs.proved_name(crates_below(PROGRAM)):
                sys.exit("cfpp: the sources changed while they were proved: call it again")
            programs.keep(name, MADE, MADE.with_suffix(programs.OBJECT))
        programs.choose()
