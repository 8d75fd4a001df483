"""The rows of crates/test_calls/data as calls over real files; CONTRIBUTING.md says what their lines mean."""
from building.sources import TOP

DATA = TOP / "crates" / "test_calls" / "data"
CALL_PARTS, WANTED_PARTS = ("file", "keep", "input"), ("output", "report")
# What a part's lines add to its bytes.
ADDED = {
    "|": lambda text: f"{text}\n".encode(),
    "text": str.encode,
    "bytes": bytes.fromhex,
    "code": lambda text: b"".join(bytes.fromhex(word)[::-1] for word in text.split()),
    "repeat": lambda text: bytes.fromhex(text.split()[1]) * int(text.split()[0]),
}


def cut(content, text):
    return content[: int(text)]


def put(content, text):
    at, word = text.split()
    return content[: int(at)] + bytes.fromhex(word)[::-1] + content[int(at) + 4 :]


def swap(content, text):
    old, _, new = (part.replace("\\n", "\n") for part in text.partition(" => "))
    return content.replace(old.encode(), new.encode(), 1)


def drop(content, text):
    return swap(content, f"{text} => ")


# What other lines make of the bytes so far.
CHANGED = {"cut": cut, "put": put, "swap": swap, "drop": drop}


class Row:
    """A call, as far as the lines read so far give it."""

    def __init__(self):
        self.name = None
        self.kept = {}
        self.begin("")

    def begin(self, name):
        self.name = name
        self.words, self.files, self.input = [], {}, b""
        self.begin_again(name)

    def begin_again(self, name):
        self.name = name
        self.part, self.content = None, b""
        # Whether the call can be made over real files and streams: those of some rows fail at the call with a certain number.
        self.is_real = True
        self.status = 0

    def close_part(self):
        """Hands over what the part that was begun has come to."""
        kind, _, name = (self.part or "").partition(" ")
        if kind == "file":
            self.files[name] = self.content
        elif kind == "keep":
            self.kept[name] = self.content
        elif kind == "input":
            self.input = self.content
        self.part, self.content = None, b""

    def change(self, word, rest):
        """Does what a line says of the part that was begun. What is wanted of the answer is of no interest here."""
        if self.part.startswith(CALL_PARTS):
            if word == "copy":
                self.content += self.kept[rest]
            elif word in ADDED:
                self.content += ADDED[word](rest)
            else:
                self.content = CHANGED[word](self.content, rest)

    def heed(self, line):
        word, _, rest = line.partition(" ")
        if word in CALL_PARTS + WANTED_PARTS:
            self.close_part()
            self.part = line
        elif word == "words":
            self.words = rest.split()
        elif word in ("fails", "room"):
            self.is_real = False
        elif word == "status":
            self.status = int(rest)
        elif word != "piece":
            self.change(word, rest)

    def keep_answer(self, output, report):
        self.kept |= {"output": output, "report": report}


def is_head(line):
    return line.startswith(("row ", "again "))


def rows_of(file):
    """The rows of a file, one after another in the same object, each once all of its lines are read."""
    row = Row()
    for line in [*file.read_text().splitlines(), "row "]:
        if not line or line.startswith("#"):
            continue
        if not is_head(line):
            row.heed(line)
            continue
        row.close_part()
        if row.name:
            yield row
        head, _, name = line.partition(" ")
        (row.begin if head == "row" else row.begin_again)(name)
