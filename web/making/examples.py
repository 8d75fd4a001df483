"""What the page offers to begin with: the runs of docs/LAB.md by lesson, some programs, the layouts of both, and files of delays."""
import base64
import json
import pathlib
import re

from making.questions import goals, questions

WEB = pathlib.Path(__file__).resolve().parent.parent
TOP = WEB.parent

RUN = re.compile(r"\./cfpp run (\S+) (\S+) --script (\S+)")
CHECK = re.compile(r"\./cfpp check (\S+\.toml)")
PRINTS = re.compile(r"# prints (\S+\.report)")
FILE = re.compile(r"(?:\w+/)*(\w+)\.script\b")
LESSON = re.compile(r"^## (Lesson \d+: .*)$")


def lab_lines():
    """The lines of the lab, each command in one."""
    return (TOP / "docs" / "LAB.md").read_text().replace("\\\n", "").replace("        --", "--").splitlines()


def name_of(layout):
    """A layout's name in the choice: the lab has a `one_adder` of its own."""
    file = pathlib.Path(layout)
    return f"lab/{file.stem}" if file.parent.name == "lab" else file.stem


def first_sentence(script):
    """What a script shows, by the comment at its head."""
    comment = " ".join(line[1:].strip() for line in (TOP / script).read_text().splitlines() if line.startswith("#"))
    sentence = FILE.sub(lambda it: it.group(1).replace("_", " "), comment.split(". ")[0].rstrip("."))
    return sentence[:1].upper() + sentence[1:]


def program_of(stem):
    """A program's files: its image, its source and what it reads, as far as they are there."""
    found = {}
    for kind in ("bin", "elf"):
        image = TOP / f"{stem}.{kind}"
        if image.exists():
            found["image"] = base64.b64encode(image.read_bytes()).decode()
    for key, ending in (("source", ".s"), ("input", ".input")):
        file = TOP / f"{stem}{ending}"
        if file.exists():
            found[key] = file.read_text()
    return found


def lessons():
    """Each script that a lesson runs, once, under the lesson's heading, with the file of the report that it is to print."""
    found, group, lines = {}, "", lab_lines()
    asked, wanted = questions(), goals()
    for line, behind in zip(lines, [*lines[1:], ""]):
        heading = LESSON.match(line)
        group = heading.group(1) if heading else group
        for layout, program, script in RUN.findall(line):
            report = PRINTS.search(behind)
            about = {"group": group, "title": first_sentence(script), "layout": name_of(layout), "script": (TOP / script).read_text()}
            stem = pathlib.Path(script).stem
            about |= {"questions": asked.get(stem, []), "goal": wanted.get(stem, "")}
            if report and script not in found:
                found[script] = about | {"name": script, "report": report.group(1)} | program_of(program.rsplit(".", 1)[0])
    return list(found.values())


def programs():
    listed = json.loads((WEB / "examples.json").read_text())
    return [{"group": "Programs"} | about | program_of(about["program"]) for about in listed]


def layouts():
    """The layouts by name, `plain` first: those of the examples, and those that the lab runs or checks."""
    files = sorted((TOP / "examples" / "layouts").glob("*.toml"), key=lambda it: (it.stem != "plain", it.stem))
    for line in lab_lines():
        named = [layout for layout, _, _ in RUN.findall(line)] + CHECK.findall(line)
        files += [TOP / name for name in named if name.endswith(".toml")]
    return {name_of(file): file.read_text() for file in files}


def delays():
    """The files of delays by name, those that are all equal first."""
    files = sorted((TOP / "examples" / "delays").glob("*.delays"), key=lambda it: (it.stem != "equal", it.stem))
    return {file.stem: file.read_text() for file in files}


def examples():
    return {"layouts": layouts(), "programs": lessons() + programs()}
