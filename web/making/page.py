"""Puts the page together: one HTML file with its styles, its code, the module and the examples, which asks for nothing else."""
import base64
import gzip
import hashlib
import json
import pathlib
import re

from making.examples import delays, examples
from making.rules import rules

WEB = pathlib.Path(__file__).resolve().parent.parent
TOP = WEB.parent
SOURCE = WEB / "src"
LIBRARY = WEB / "library"
PAGE = WEB / "cfpp.html"
MAIN = "main"
# The page has at most so many bytes.
MOST = 600_000

IMPORT = re.compile(r'^import \{ (.*) \} from "(?:\./|\.\./library/)(\w+)\.js";$', re.M)
EXPORT = re.compile(r"^export (?:async )?(?:class|function|const) (\w+)", re.M)
# A comment of lines of its own, which the page can do without.
COMMENT = re.compile(r"^ *//.*\n", re.M)
# What a bundled library exports, as `export{a as h}`.
EXPORT_LIST = re.compile(r"export ?\{([^}]*)\};?\s*$")


def text_of(name):
    """The text of a module, of the page's own or of a library."""
    file = SOURCE / f"{name}.js"
    return (file if file.exists() else LIBRARY / f"{name}.js").read_text()


def modules_in_order():
    """The names of the code's modules, each behind those that it imports."""
    order = []

    def visit(name):
        if name not in order:
            for _, used in IMPORT.findall(text_of(name)):
                visit(used)
            order.append(name)

    visit(MAIN)
    return order


def code_of(name):
    """A module as a constant that has what it exports, so that the names of two modules cannot clash; without its comments."""
    text = COMMENT.sub("", text_of(name))
    listed = EXPORT_LIST.search(text)
    pairs = re.findall(r"(\w+) as (\w+)", listed.group(1)) if listed else [(it, it) for it in EXPORT.findall(text)]
    exported = ", ".join(f"{shown}: {own}" for own, shown in pairs)
    text = EXPORT_LIST.sub("", text)
    text = IMPORT.sub(lambda it: f"const {{ {it.group(1)} }} = {it.group(2)}Module;", text)
    text = re.sub(r"^export ", "", text, flags=re.M)
    return f"const {name}Module = (() => {{\n{text}return {{ {exported} }};\n}})();\n"


def explanations():
    """The tables of docs/ERRORS.md: by section and reason, the placeholders, why and what to do. A bar's own section is `Bars`."""
    tables, section = {}, None
    for line in (TOP / "docs" / "ERRORS.md").read_text().splitlines():
        if line.startswith("## "):
            section = tables.setdefault(line[3:], {})
        row = re.match(r"\| `(Text )?(\w+)([^`|]*)`[^|]*\| ([^|]*) \|(?: ([^|]*) \|)?", line)
        if row and section is not None:
            text, name, parts, why, mend = row.groups()
            about = {"placeholders": parts.split(), "why": why.strip(), "mend": (mend or "").strip()}
            section[f"Text_{name}" if text else name] = about
    return tables


def as_data(kind, name, text):
    return f'<script type="{kind}" id="data-{name}">{text}</script>\n'


def as_json(name, value):
    # No text of an example can end the element that it stands in.
    return as_data("application/json", name, json.dumps(value, ensure_ascii=True).replace("<", "\\u003c"))


def hash_of(text):
    return f"'sha256-{base64.b64encode(hashlib.sha256(text.encode()).digest()).decode()}'"


def policy(styles, code):
    """What the browser is to allow: these styles, this code and the module, and no request at all."""
    parts = [
        "default-src 'none'",
        f"script-src {hash_of(code)} 'wasm-unsafe-eval'",
        f"style-src {' '.join(map(hash_of, styles))}",
        "base-uri 'none'",
        "form-action 'none'",
    ]
    return "; ".join(parts)


def shown():
    """What the page shows of the repository's documents and examples."""
    return {"explanations": explanations(), "rules": rules(), "delays": delays(), "examples": examples()}


def assembled(module, built, shown):
    """The page, of the module as packed text, of what it was built from, and of what it shows."""
    styles = [(SOURCE / name).read_text() for name in ("drawing.css", "page.css")]
    code = '"use strict";\n' + "".join(code_of(name) for name in modules_in_order())
    head = [
        '<!doctype html>\n<html lang="en">\n<head>\n<meta charset="utf-8">\n',
        f'<meta http-equiv="Content-Security-Policy" content="{policy(styles, code)}">\n',
        '<meta name="viewport" content="width=device-width, initial-scale=1">\n<meta name="referrer" content="no-referrer">\n',
        f'<title>Counterflow pipeline</title>\n<style id="drawing-style">{styles[0]}</style>\n<style>{styles[1]}</style>\n</head>\n<body>\n',
    ]
    body = [
        (SOURCE / "page.html").read_text(),
        as_data("application/octet-stream", "module", module),
        as_json("built", built),
        as_data("application/octet-stream", "shown", packed(json.dumps(shown).encode())),
    ]
    # The code comes last: it runs when all that it reads stands there.
    end = [f"<script>{code}</script>\n</body>\n</html>\n"]
    text = "".join(head + body + end)
    size = len(text.encode())
    if size > MOST:
        raise SystemExit(f"the page has {size} bytes, over {MOST}")
    return text


def crates_below(program):
    """The crates that the program is built of."""
    listed = {}
    for line in (TOP / "crates.txt").read_text().splitlines():
        if line and not line.startswith("#"):
            name, _, used = line.partition(":")
            listed[name.split()[0]] = used.split()
    found, left = set(), [program]
    while left:
        name = left.pop()
        if name in listed and name not in found:
            found.add(name)
            left += listed[name]
    return found


def sources():
    """The code that the module is made of, and the files beside it."""
    files = [path for name in crates_below("cfpp") for path in (TOP / "crates" / name / "src").rglob("*.rt")]
    return sorted([*files, *(WEB / "wasm").glob("*.[ch]"), WEB / "making" / "retarget.py", WEB / "making" / "module.py"])


def sum_of_sources():
    total = hashlib.sha256()
    for path in sources():
        total.update(f"{path.relative_to(TOP)} {hashlib.sha256(path.read_bytes()).hexdigest()}\n".encode())
    return total.hexdigest()[:32]


def packed(data):
    return base64.b64encode(gzip.compress(data, 9, mtime=0)).decode()


def part_of_page(name):
    """What an element of the kept page has; nothing where an older page has no such element."""
    found = re.search(f'id="data-{name}">([^<]*)</script>', PAGE.read_text())
    return found.group(1) if found else ""


def kept_module():
    """The module of the page that is kept, as packed text, and what that was built from."""
    return part_of_page("module"), json.loads(part_of_page("built"))


def kept_shown():
    """What the page that is kept shows."""
    data = base64.b64decode(part_of_page("shown"))
    return json.loads(gzip.decompress(data)) if data else {}
