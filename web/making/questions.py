"""The questions and goals of docs/LAB.md that name a script: where Predict asks them, their answers, and what is to be reached."""
import pathlib
import re

TOP = pathlib.Path(__file__).resolve().parent.parent.parent

LESSON = re.compile(r"^## Lesson \d+: .*$", re.M)
QUESTION = re.compile(r"^(\d+)\. (.+(?:\n   .+)*)", re.M)
MARK = re.compile(r"\s*\*\(Predict: `(\w+)`, move (\d+)\.\)\*$")
GOAL = re.compile(r"by the goal `([^`]+)`,\s+with\s+\*Goal\*\s+in\s+`(\w+)`")
ANSWERS = "**Answers.** "
LINK = re.compile(r"\[([^]]*)\]\([^)]*\)")


def plain(text):
    """A paragraph in one line, with its links as words."""
    return LINK.sub(r"\1", " ".join(text.split()))


def answers_of(lesson):
    """The answers at the end of a lesson, by number: each begins with its number and a colon."""
    text = plain(lesson.partition(ANSWERS)[2])
    starts, at = [], 0
    while (found := re.compile(rf"(?:^|(?<= )){len(starts) + 1}: ").search(text, at)):
        starts.append(found)
        at = found.end()
    ends = [it.start() for it in starts[1:]] + [len(text)]
    return {number: text[it.end():end].strip() for number, (it, end) in enumerate(zip(starts, ends), 1)}


def questions_of(lesson):
    """The questions of a lesson that name a script: its name, the number of moves, the question and its answer."""
    answers = answers_of(lesson)
    for number, text in QUESTION.findall(lesson.partition(ANSWERS)[0]):
        mark = MARK.search(text)
        if mark:
            about = {"number": int(number), "at": int(mark.group(2)), "text": plain(MARK.sub("", text)), "answer": answers[int(number)]}
            yield mark.group(1), about


def lessons():
    return LESSON.split((TOP / "docs" / "LAB.md").read_text())[1:]


def questions():
    """The questions by the name of the script at whose moves they stand."""
    found = {}
    for lesson in lessons():
        for script, about in questions_of(lesson):
            found.setdefault(script, []).append(about)
    return found


def goals():
    """The goals by the name of the script from which they are to be reached."""
    return {script: " ".join(goal.split()) for lesson in lessons() for goal, script in GOAL.findall(lesson)}
