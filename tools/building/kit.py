"""Where the Rattle kit is, whose command is rt."""
import pathlib
import shutil
import subprocess
import sys

MISSING = (
    "cfpp: the Rattle kit is not installed, whose command is rt; what works without it: "
    "the page, web/cfpp.html in a browser, and the program of a release"
)


def folder():
    """The kit's directory; without a kit the call ends, with one line that says what works."""
    command = shutil.which("rt") or sys.exit(MISSING)
    return pathlib.Path(command).resolve().parent.parent


def library():
    """The module from which the kit's own rt is made."""
    programs = str(folder() / "bin")
    if programs not in sys.path:
        sys.path.append(programs)
    import rtlib  # pylint: disable=import-error,import-outside-toplevel

    return rtlib


def llvm(name, *words):
    """Runs a tool of the kit's LLVM, which are one file, and answers what it prints."""
    clang = folder() / "toolchain" / "bin" / "clang"
    return subprocess.run([name, *map(str, words)], executable=clang, capture_output=True, text=True, check=True).stdout
