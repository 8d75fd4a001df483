"""The program of a release: the proved one, linked so that it runs with each C library of the last years."""
import re
import shutil
import subprocess
import sys

from building import compiling, kit, programs
from building.sources import CRATES, PROGRAM, crates_below, files_of
from releasing import START

# The oldest C library that the program has to run with.
OLDEST = (2, 28)
FOR_START = ("--target=x86_64-unknown-linux-gnu", "-O2", "-fPIE", "-ffreestanding", "-fno-stack-protector", "--no-default-config", "-c")
LOGIC = re.compile(r"logic ([0-9a-f]{16})")


def proved_object():
    """The object that the proved program of these sources was linked from. Without one there is no release."""
    made = programs.CACHE / f"{programs.proved_name(crates_below(PROGRAM))}{programs.OBJECT}"
    if not made.exists():
        sys.exit("cfpp: a release is made from the object of the proved program, and none of these sources is kept: call tools/prove")
    return made


def stop_unless_proved_in(logic, made):
    """Stops where the object does not say that it was proved in this logic: the compiler puts that into each, as a comment."""
    comment = kit.llvm("llvm-readelf", "--string-dump=.comment", made)
    if logic not in comment:
        sys.exit(f"cfpp: {made.name} was not proved in the logic of this kit, {logic}: call tools/prove")


def stop_unless_old_enough(linked):
    """Stops where the program needs a newer C library than the oldest that is promised."""
    asked = [tuple(map(int, found.split("."))) for found in re.findall(r"GLIBC_([0-9.]+)", kit.llvm("llvm-readelf", "--version-info", linked))]
    if not asked or max(asked) > OLDEST:
        sys.exit(f"cfpp: the program would need version {max(asked, default='?')} of the C library")


def link(folder):
    """The program, without the names of its functions."""
    made = proved_object()
    stop_unless_proved_in(LOGIC.search(kit_line())[1], made)
    start, linked = folder / "start.o", folder / PROGRAM
    kit.llvm("clang", *FOR_START, START, "-o", start)
    compiling.link(linked, made, start)
    kit.llvm("llvm-strip", linked)
    stop_unless_old_enough(linked)
    return linked


def kit_line():
    return subprocess.run([shutil.which("rt"), "version"], capture_output=True, text=True, check=True).stdout.strip()


def sources():
    """The files that were proved, as a checkout has them."""
    needed = crates_below(PROGRAM)
    return [CRATES.parent / "crates.txt", *sorted(path for name in needed for path in files_of(name))]
