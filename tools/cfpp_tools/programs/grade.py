"""Grades the scripts and layouts of a class by goals.

    tools/grade GOALS DIRECTORY >TABLE    grades a class
    tools/grade GOALS                     grades the answers that the goals name

DIRECTORY has a directory for each student, with the files that the goals name. TABLE is a CSV file with a row for each student:
the name of the directory, the points, how many there are in all, and the first thing that is wrong.

GOALS is a TOML file with a table [[goal]] for each goal, which has `name`, `file` (that of the student), `points` (1), perhaps
`answer` (a file that meets the goal), and what must hold. The names of other files are as seen from the directory of GOALS. Of a
script, which is run on `layout` and `program`:

    ending = "script end"           how the run ends: its kind, as `barred`, with a reason, as `barred SourceMissing x10`, or
                                    the whole line, as `exit 7`; without this key the script ends
    retired = 2                     this many instructions have retired
    registers = { x01 = 2 }         registers have these values
    empty = true                    nothing is in the pipes and the sidings
    fetch = 0x10008                 fetch is there
    moves_at_most = 18
    kills_at_least = 1
    dead_at_least = 1
    barred = { "execute 2" = "SourceMissing x10" }    these moves are then barred so
    rounds_at_most = 15             the script has at most this many comments `# round` or `# round N`; the moves after each, up to the
                                    next one, share no stage, cell, lane, fetch, memory or code

Of a layout, whose file ends in .toml: it is accepted, and

    stages = 4
    units_at_most = { add = 3 }
    cells_at_most = 2
"""

from __future__ import annotations

import csv
import pathlib
import sys
from typing import Dict, List, Optional, Sequence

from .. import command_line
from ..command_line import Stop
from ..grading.goals import Goal, read_goals
from ..grading.grade import grade


def answers(where: str, goals: Sequence[Goal]) -> List[pathlib.Path]:
    """The answers that the goals name."""
    missing = next((goal.name for goal in goals if goal.answer is None), None)
    if missing is not None:
        raise Stop(f"{where}: the goal `{missing}` names no answer")
    return [pathlib.Path(goal.answer or "") for goal in goals]


def graded(where: str, goals: Sequence[Goal], directory: Optional[pathlib.Path]) -> Dict[str, List[pathlib.Path]]:
    """Each student's files, one for each goal; without a directory of students, the answers."""
    if directory is None:
        return {"answer": answers(where, goals)}
    students = sorted(path for path in directory.iterdir() if path.is_dir())
    if not students:
        raise Stop(f"{directory}: it has no directory of a student")
    return {student.name: [student / goal.file for goal in goals] for student in students}


def main(given: Sequence[str]) -> None:
    parser = command_line.parser("tools/grade", __doc__)
    parser.add_argument("goals", metavar="GOALS")
    parser.add_argument("directory", metavar="DIRECTORY", type=pathlib.Path, nargs="?")
    arguments = parser.parse_args(given)
    goals = read_goals(arguments.goals)
    students = graded(arguments.goals, goals, arguments.directory)
    of = sum(goal.points for goal in goals)
    table = csv.writer(sys.stdout, lineterminator="\n")
    table.writerow(["student", "points", "of", "first wrong"])
    for student, files in students.items():
        points, wrong = grade(files, goals)
        table.writerow([student, points, of, wrong])
