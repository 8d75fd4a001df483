"""Which rows of a table can be compared: those of a program that did the same work."""

from __future__ import annotations

import collections
from typing import Dict, List, Sequence, Set, Tuple

from .runs import Row, Run, run_of

# What is put after the name of a row that cannot be compared with most others of its program.
MARK = " *"


def work_of(row: Row) -> Tuple[str, str]:
    """What a run did: how it ended, and how many instructions retired, where that is counted."""
    return row["ending"], row["retired"]


def by_program(rows: Sequence[Row]) -> Dict[str, List[Row]]:
    """The rows of each program."""
    found: Dict[str, List[Row]] = {}
    for row in rows:
        found.setdefault(row["program"], []).append(row)
    return found


def usual_work(rows: Sequence[Row]) -> Tuple[str, str]:
    """What most of these runs did; where as many did something else, the first of them counts."""
    return collections.Counter(map(work_of, rows)).most_common(1)[0][0]


def unlike(rows: Sequence[Row]) -> Set[Run]:
    """The runs that did other work than most of their program: no time or count of theirs can be compared with those."""
    found: Set[Run] = set()
    for of_program in by_program(rows).values():
        usual = usual_work(of_program)
        found.update(run_of(row) for row in of_program if work_of(row) != usual)
    return found


def remarks(rows: Sequence[Row]) -> List[str]:
    """What is to be known before rows are compared: a line for each program whose runs did not all do the same work, and one where runs
    met the limit."""
    found = []
    different = unlike(rows)
    for program, of_program in by_program(rows).items():
        marked = [row for row in of_program if run_of(row) in different]
        if marked:
            named = "; ".join(f"{row['layout']} {row['schedule']}: {row['ending']}" for row in marked[:3])
            more = f"; and {len(marked) - 3} more" if len(marked) > 3 else ""
            usual = " retired ".join(filter(None, usual_work(of_program)))
            found.append(f"{program}: {len(marked)} of {len(of_program)} rows cannot be compared with `{usual}`: {named}{more}")
    limited = sum(row["ending"].split(" ")[0] == "limit" for row in rows)
    if limited:
        found.append(f"{limited} of {len(rows)} rows met the limit: what they count is of the beginning of a run")
    return found
