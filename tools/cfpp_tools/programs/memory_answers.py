"""Sees that lack of memory is answered only where memory was refused.

    tools/memory_answers

No contract can say when memory is refused, so a call that answers NoMemory for another cause would be proved. This looks at each place in
crates/*/src where NoMemory or AllocError is made: within the six lines up to it a call that asks for memory must have failed, or have
answered the same. Prints each place where neither holds, and ends with 1 if there is any.
"""

from __future__ import annotations

import pathlib
import re
from typing import Iterator, Sequence

from .. import command_line
from ..program import TOP

MADE = re.compile(r"\bNoMemory\b|\bAllocError\b|\bno_memory\(\)|\brefuse_memory\(\)")
# Where none is made: declarations, patterns on the left of an arrow, the text of a report, the number of a status.
OTHER = re.compile(
    r"^\s*(//|use |ghost |ensures|requires|impl |fn |pub |NoMemory(\(usize\))?,|\})"
    r"|NoMemory => (page\.push|push_variant|\d)|-> |^\s*\w+: Result<|matches!"
)
# A call that asks for memory failed, or answered that there is none.
REFUSED = re.compile(
    r"Err\((_|AllocError|error)\) =>|NoMemory(\(_\))?\) =>|is_err\(\)|else \{|From<AllocError>|From<NoMemory>|is_memory\(\)"
    r"|OutOfMemory|fn no_memory|fn refuse_memory|lacks_memory\(|fn from\(|TryReserve"
)


def is_explained(lines: Sequence[str]) -> bool:
    """Whether one of these lines refuses memory."""
    return any(REFUSED.search(line) for line in lines)


def unexplained(path: pathlib.Path) -> Iterator[str]:
    """The places of a file where neither holds."""
    lines = path.read_text().splitlines()
    for at, line in enumerate(lines):
        is_made = MADE.search(line) and not OTHER.search(line)
        if is_made and not is_explained(lines[max(0, at - 6) : at + 1]):
            yield f"{path.relative_to(TOP)}:{at + 1}: {line.strip()}"


def main(given: Sequence[str]) -> int:
    command_line.parser("tools/memory_answers", __doc__).parse_args(given)
    sources = [path for path in sorted(TOP.glob("crates/*/src/**/*.rt")) if "test" not in path.stem]
    found = [place for path in sources for place in unexplained(path)]
    print("\n".join(found), end="\n" if found else "")
    return int(bool(found))
