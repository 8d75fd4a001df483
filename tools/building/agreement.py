#!/usr/bin/env python3
"""Makes each call of crates/test_calls/data that real files and streams can have by two programs, and prints those in which status, output or
report differ, or the status is not the row's.

    agreement.py PROGRAM PROGRAM

Its last line counts the calls. Ends with 1 where one differs.
"""
import pathlib
import subprocess
import sys
import tempfile

sys.dont_write_bytecode = True
sys.path.insert(0, str(pathlib.Path(__file__).resolve().parent.parent))

from building.rows import DATA, rows_of


def answer(program, row):
    """The status, the output and the report of the call, in a directory that has its files alone."""
    with tempfile.TemporaryDirectory() as folder:
        for name, content in row.files.items():
            (pathlib.Path(folder) / name).write_bytes(content)
        done = subprocess.run([program, *row.words], cwd=folder, input=row.input, capture_output=True, timeout=600, check=False)
    return done.returncode, done.stdout, done.stderr


def differing(file, programs):
    """How many calls of a file were made, and the names of the rows whose answers differ."""
    made, wrong = 0, []
    for row in rows_of(file):
        if row.is_real:
            first, other = (answer(program, row) for program in programs)
            row.keep_answer(*first[1:])
            made += 1
            wrong += [row.name] * (first != other or first[0] != row.status)
    return made, wrong


def main():
    programs = [pathlib.Path(program).resolve() for program in sys.argv[1:]]
    if len(programs) != 2:
        sys.exit(__doc__)
    calls = faults = 0
    for file in sorted(DATA.glob("*.rows")):
        made, wrong = differing(file, programs)
        calls += made
        faults += len(wrong)
        for name in wrong:
            print(f"differs: {file.name}: {name}")
    print(f"{calls} calls made, {faults} differ")
    sys.exit(faults > 0)


main()
