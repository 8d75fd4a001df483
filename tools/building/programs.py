"""The programs that are kept in .cache/, each under the checksum of what it was built from, and which of them ./cfpp runs.

A proved program is kept as cfpp-SUM, with the object that it was linked from beside it, and one without proofs as unproved-SUM. The file
`current` names the one that ./cfpp runs, which is the proved one where both are there. It is as old as the sources that were looked at,
so that ./cfpp sees at once whether a source is newer.
"""
import contextlib
import fcntl
import os
import shutil
import signal
import sys

from building.sources import CODE_PARTS, PROGRAM, PROVED_PARTS, TOP, crates_below, sum_of

CACHE = TOP / ".cache"
CURRENT = CACHE / "current"
PROVED, UNPROVED = PROGRAM, "unproved"
OBJECT = ".o"


def proved_name(needed):
    return f"{PROVED}-{sum_of(needed, PROVED_PARTS)}"


def unproved_name(needed):
    """Without proofs, only the code counts."""
    return f"{UNPROVED}-{sum_of(needed, CODE_PARTS)}"


@contextlib.contextmanager
def alone(what):
    """Keeps other calls that do the same waiting."""
    CACHE.mkdir(exist_ok=True)
    with open(CACHE / f"{what}.lock", "w", encoding="utf-8") as lock:
        try:
            fcntl.flock(lock, fcntl.LOCK_EX | fcntl.LOCK_NB)
        except BlockingIOError:
            print(f"cfpp: another call is {what} the simulator; waiting for it", file=sys.stderr, flush=True)
            fcntl.flock(lock, fcntl.LOCK_EX)
        yield


@contextlib.contextmanager
def momentarily():
    """As `alone`, for the moment in which `current` is written."""
    with open(CACHE / "current.lock", "w", encoding="utf-8") as lock:
        fcntl.flock(lock, fcntl.LOCK_EX)
        yield


def choose():
    """Has ./cfpp run the best program that is kept of the sources as they are now, and answers its name; None where none is kept."""
    CACHE.mkdir(exist_ok=True)
    with momentarily():
        began = CACHE / "began"
        began.touch()
        needed = crates_below(PROGRAM)
        name = next((name for name in (proved_name(needed), unproved_name(needed)) if (CACHE / name).exists()), None)
        if name:
            written = CACHE / "current.new"
            written.write_text(f"{name}\n")
            # A source that is written from here on is newer than what names the program.
            shutil.copystat(began, written)
            written.replace(CURRENT)
    return name


def unproved():
    """The file of the program that was compiled without proofs of the sources as they are; None where none is kept."""
    file = CACHE / unproved_name(crates_below(PROGRAM))
    return file if file.exists() else None


def keep(name, program, made_from=None):
    """Keeps a program, and the object that it was linked from, instead of the one of its kind that was kept before."""
    kind = name.partition("-")[0]
    for file, kept in ((made_from, f"{name}{OBJECT}"), (program, name)):
        if file and file.exists():
            copy = CACHE / f"copy-{os.getpid()}"
            shutil.copy2(file, copy)
            copy.replace(CACHE / kept)
    for other in CACHE.glob(f"{kind}-*"):
        if other.name not in (name, f"{name}{OBJECT}"):
            other.unlink()


def ended_with_what_was_begun(call):
    """Runs a tool so that a signal that ends it lets it end what it began, and remove what it left."""
    for number in (signal.SIGHUP, signal.SIGTERM):
        signal.signal(number, lambda *_: sys.exit(1))
    try:
        call()
    except KeyboardInterrupt:
        sys.exit(130)
