"""A copy of the repository in which one crate at a time is proved, since rt keeps a crate and all that it uses for itself meanwhile."""
import contextlib
import hashlib
import os
import shutil
import subprocess
import sys

from building.programs import CACHE
from building.sources import CRATES, PROGRAM, PROVED_PARTS, TOP

RT = str(TOP / "tools" / "building" / "once.py")


def link_tree(old, new):
    """The same files under another directory."""
    shutil.rmtree(new, ignore_errors=True)
    if old.exists():
        shutil.copytree(old, new, copy_function=os.link)


def format_of(name):
    """The file in which the library that is kept of a crate says what it is."""
    return CRATES / name / "out" / "rlib" / f"{name}.rlib" / "format"


def fits(name, below):
    """Whether the library that is kept of a crate was built over those that are kept of the crates below it.

    One that holds its statements alone fits no other build of these, even where the sources are the same.
    """
    files = {other: format_of(other) for other in {name} | below}
    sums = {other: hashlib.sha256(file.read_bytes()).hexdigest() for other, file in files.items() if file.exists()}
    said = [line.split() for line in files[name].read_text().splitlines()] if name in sums else []
    return all(sums.get(words[1], words[2]) == words[2] for words in said if words[0] == "over")


class Place:
    """A copy of the repository in which one crate at a time is proved."""

    def __init__(self, number, needed):
        self.top = CACHE / "places" / str(number)
        self.linked = set()
        for name in needed:
            for part in PROVED_PARTS:
                if (CRATES / name / part).exists():
                    shutil.copytree(CRATES / name / part, self.crate(name) / part)
        shutil.copy2(TOP / "HANDLES", self.top / "HANDLES")
        # rt asks for the sources of each crate that is listed.
        lines = (TOP / "crates.txt").read_text().splitlines()
        listed = [line for line in lines if line.partition(":")[0] in needed]
        (self.top / "crates.txt").write_text("".join(f"{line}\n" for line in listed))

    def crate(self, name):
        return self.top / "crates" / name

    def start(self, name, below, jobs, niceness):
        """Begins to prove a crate over all below it; the last, the program, is also run once, without arguments."""
        if not fits(name, below):
            shutil.rmtree(CRATES / name / "out" / "rlib")
        link_tree(CRATES / name / "out", self.crate(name) / "out")
        # Of the crates below only what others need of them is linked, which is few files of many.
        for other in below - self.linked:
            link_tree(CRATES / other / "out" / "rlib", self.crate(other) / "out" / "rlib")
        self.linked |= below | {name}
        verb = "run" if name == PROGRAM else "lib"

        def apart():
            # No session of its own: where each session gets the same share of the processors, four jobs would get no more than one.
            os.setpgrp()
            os.nice(niceness)

        with open(CACHE / "log" / name, "wb") as log:
            return subprocess.Popen(
                [sys.executable, RT, verb, "--jobs", str(jobs)],
                cwd=self.crate(name),
                stdin=subprocess.DEVNULL,
                stdout=log,
                stderr=subprocess.STDOUT,
                preexec_fn=apart,
            )

    def hand_over(self, name):
        """Puts what the proof left where the crate is."""
        link_tree(self.crate(name) / "out", CRATES / name / "out")


@contextlib.contextmanager
def places_for(needed, number):
    """This many places, which are removed when they are done with."""
    shutil.rmtree(CACHE / "places", ignore_errors=True)
    try:
        yield [Place(place, needed) for place in range(number)]
    finally:
        shutil.rmtree(CACHE / "places", ignore_errors=True)
