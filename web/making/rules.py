"""The rules that can be taken away, from docs/RULES.md: what each is for, and the programs that go wrong without it."""
import base64
import pathlib
import re

TOP = pathlib.Path(__file__).resolve().parent.parent.parent

ROW = re.compile(r"^\| `(\w+:\w+)` \| (?:`(\w+)`(?:, on `(\w+)`)?|none found) \|", re.M)
# What a paragraph says of the rules at its head.
WORDS = re.compile(r"^\*\*((?:`\w+:\w+`(?:, )?)+)\.\*\* (.+(?:\n\S.*)*)", re.M)
PLAIN_LAYOUT = "tiny"


def layout_text(name):
    """The text of a layout: one of the examples', or one that is there for these programs alone."""
    folders = (TOP / "examples" / "layouts", TOP / "examples" / "rules")
    return next(file for file in (folder / f"{name}.toml" for folder in folders) if file.exists()).read_text()


def program_of(name, layout):
    stem = TOP / "examples" / "rules" / name
    image = base64.b64encode(stem.with_suffix(".bin").read_bytes()).decode()
    return {"name": name, "image": image, "source": stem.with_suffix(".s").read_text(), "layout": layout or PLAIN_LAYOUT}


def words_by_rule(text):
    """For each rule its paragraph in one line, which names the rules where it is of several."""
    found = {}
    for names, words in WORDS.findall(text):
        of = re.findall(r"`(\w+:\w+)`", names)
        line = " ".join(words.split())
        found |= {name: f"{names}: {line}" if len(of) > 1 else line for name in of}
    return found


def rules():
    """The rules in the order of the table, each with its words and its programs, which may be none, and the layouts of these by name."""
    text = (TOP / "docs" / "RULES.md").read_text()
    words, programs = words_by_rule(text), {}
    for rule, program, layout in ROW.findall(text):
        programs.setdefault(rule, []).extend([program_of(program, layout)] if program else [])
    layouts = {program["layout"] for found in programs.values() for program in found}
    return {
        "layouts": {name: layout_text(name) for name in sorted(layouts)},
        "rules": [{"name": name, "words": words[name], "programs": found} for name, found in programs.items()],
    }
