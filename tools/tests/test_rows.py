"""The readers take each report that a row of crates/test_calls/data gives in full, with the ending of the row's status. The rows were
worked out apart from the program."""

from __future__ import annotations

import dataclasses
from typing import Dict, Iterator, List, Optional

import pytest

from cfpp_tools.program import TOP
from cfpp_tools.readers.lines import Lines
from cfpp_tools.readers.layouts import read_layout
from cfpp_tools.readers.reports import read_report

DATA = TOP / "crates" / "test_calls" / "data"
START = {register: 0x7F0FFFF0 if register == 2 else 0 for register in range(32)}
# The words that begin a part of a row.
PARTS = ("row", "again", "keep", "file", "words", "status", "report", "output", "input", "fails", "piece", "room")


@dataclasses.dataclass
class Row:
    """What a row says of its report; the text is None where it is given in another way than line by line. It is cut where the
    report could not be written whole."""

    where: str
    arguments: str = ""
    status: int = 0
    report: Optional[str] = None
    output: Optional[str] = None
    is_cut: bool = False


def registers(text: str) -> str:
    """The eight lines of the registers, of which some differ from the start."""
    values = dict(START)
    values.update({int(pair[1:3]): int(pair[4:], 16) for pair in text.split()})
    lines = (" ".join(f"x{at:02}={values[at]:08x}" for at in range(first, first + 4)) for first in range(0, 32, 4))
    return "".join(f"{line}\n" for line in lines)


def text_of(lines: List[str], kept: Dict[str, str]) -> Optional[str]:
    """The text that the lines of a part give, where each gives lines."""
    found = ""
    for line in lines:
        word, _, rest = line.partition(" ")
        if word == "|":
            found += f"{rest}\n"
        elif word == "registers":
            found += registers(rest)
        elif word == "copy" and rest in kept:
            found += kept[rest]
        else:
            return None
    return found


def parts_of(lines: List[str]) -> Iterator[List[str]]:
    """The lines of a file by parts: the line that begins each, and those of its content."""
    part: List[str] = []
    for line in lines:
        if line.split(" ")[0] in PARTS:
            yield part
            part = [line]
        elif line and not line.startswith("#"):
            part.append(line)
    yield part


def rows_of(name: str) -> List[Row]:
    kept: Dict[str, str] = {}
    rows: List[Row] = [Row(name)]
    for first, *content in filter(None, parts_of((DATA / name).read_text().splitlines())):
        word, _, rest = first.partition(" ")
        text = text_of(content, kept)
        if word in ("row", "again"):
            rows.append(Row(f"{name}: {rest}"))
        elif word == "keep" and text is not None:
            kept[rest] = text
        elif word == "words":
            rows[-1].arguments = rest
        elif word == "status":
            rows[-1].status = int(rest)
        elif first.startswith("fails report"):
            rows[-1].is_cut = True
        elif first in ("report", "output"):
            setattr(rows[-1], first, text)
    return rows


ROWS = [row for path in sorted(DATA.glob("*.rows")) for row in rows_of(path.name)]


def test_there_are_rows():
    assert len([row for row in ROWS if row.report]) > 250


@pytest.mark.parametrize("row", [row for row in ROWS if row.report and not row.is_cut], ids=lambda row: row.where)
def test_a_report(row):
    report = read_report(row.report)
    if report.ending:
        assert report.ending.status == row.status
    else:
        assert row.status == 0


@pytest.mark.parametrize("row", [row for row in ROWS if row.output and row.arguments.startswith("check ")], ids=lambda row: row.where)
def test_a_layout(row):
    layout = read_layout(Lines(row.output))
    assert f"stages = {layout.stages}\n" in row.output and f"lane = {layout.lane}\n" in row.output
