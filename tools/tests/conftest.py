"""What the tests share: the directories of the repository, quotations of its documents, and the built program."""

from __future__ import annotations

import pathlib
from typing import Callable

import pytest

from cfpp_tools.program import TOP, NoProgram, program


@pytest.fixture
def examples() -> pathlib.Path:
    return TOP / "examples"


@pytest.fixture
def tools() -> pathlib.Path:
    return TOP / "tools"


@pytest.fixture(scope="session")
def built() -> str:
    """The program; tests that need it are skipped where it cannot be built."""
    try:
        return program()
    except NoProgram as missing:
        pytest.skip(str(missing))


@pytest.fixture
def quoted() -> Callable[[str, str], str]:
    """The indented or fenced block of a page from the line that begins so to the block's end."""

    def quote(page: str, first: str) -> str:
        lines = (TOP / "docs" / page).read_text().splitlines()
        begin = next(at for at, line in enumerate(lines) if line.startswith(("    " + first, first)))
        indent = "    " if lines[begin].startswith("    ") else ""
        found = []
        for line in lines[begin:]:
            if line.startswith("```") or not line.startswith(indent) or not line:
                break
            found.append(line[len(indent) :])
        return "".join(f"{line}\n" for line in found)

    return quote
