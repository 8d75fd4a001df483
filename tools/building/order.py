"""In which order crates are proved: how long each takes, and how many can be proved side by side."""
import os
import pathlib

from building.sources import CRATES, PROVED_PARTS, files_of

# The memory that the proof of one crate takes at most, in most cases.
MEMORY_OF_A_CRATE = 3 << 30
# What the proof of a crate without a function takes, in bytes of the code whose proof takes as long.
WORK_OF_A_CRATE = 30_000


def work_in(name):
    """About how long the proof of a crate takes, in bytes of code: each crate loads those below it, and lemmas take less than functions."""
    size = {part: 0 for part in PROVED_PARTS}
    for path in files_of(name):
        size[path.relative_to(CRATES / name).parts[0]] += path.stat().st_size
    return WORK_OF_A_CRATE + size["src"] + (size["specs"] + size["proofs"]) // 20


def chains(needed):
    """For each crate how much is to be done in the longest chain of crates from it up to the program."""
    size = {name: work_in(name) for name in needed}
    above = {name: [other for other in needed if name in needed[other]] for name in needed}
    length = {}

    def measure(name):
        if name not in length:
            length[name] = size[name] + max(map(measure, above[name]), default=0)
        return length[name]

    return {name: measure(name) for name in needed}


def places():
    """How many crates are proved side by side, and the number of processors."""
    processors = len(os.sched_getaffinity(0))
    free = os.sysconf("SC_AVPHYS_PAGES") * os.sysconf("SC_PAGE_SIZE")
    for line in pathlib.Path("/proc/meminfo").read_text().splitlines():
        if line.startswith("MemAvailable:"):
            free = int(line.split()[1]) << 10
    return max(1, min(processors, free // MEMORY_OF_A_CRATE)), processors
