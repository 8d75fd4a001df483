"""The table of commands, tools/terminal/commands.txt, which says what its lines are."""
import dataclasses
import pathlib

TABLE = pathlib.Path(__file__).resolve().parent.parent / "terminal" / "commands.txt"
# What means a number, the name of a command, or that of a rule, instead of a file.
NUMBER, COMMAND, RULE = "N", "COMMAND", "RULE"
REPEATED = ".."


@dataclasses.dataclass(frozen=True)
class Command:
    """A command, or an option that is given instead of one."""

    name: str
    operands: tuple
    does: str

    @property
    def call(self):
        return " ".join((self.name, *self.operands))


@dataclasses.dataclass(frozen=True)
class Option:
    """An option, with one value if it takes one, and the names of the commands that take it."""

    name: str
    value: str
    commands: tuple
    does: str

    @property
    def call(self):
        return f"{self.name} {self.value}".rstrip()

    def is_literal(self):
        """Whether the value is given literally."""
        return self.value.islower()

    def is_file(self):
        """Whether the value is the name of a file."""
        return self.value.isupper() and self.value not in (NUMBER, RULE)


@dataclasses.dataclass(frozen=True)
class Status:
    """Why the process ends with a number."""

    number: int
    why: str


@dataclasses.dataclass(frozen=True)
class Table:
    """All of them, each list in the order of the table."""

    commands: tuple
    options: tuple
    statuses: tuple

    def options_of(self, command):
        return [option for option in self.options if command in option.commands]


def read():
    """The table. A line of another kind is refused."""
    commands, options, statuses = [], [], []
    for line in TABLE.read_text().splitlines():
        kind, *fields = (field.strip() for field in line.split("|"))
        if kind == "command":
            call, does = fields
            name, *operands = call.split()
            commands.append(Command(name, tuple(operands), does))
        elif kind == "option":
            call, names, does = fields
            name, _, value = call.partition(" ")
            options.append(Option(name, value, tuple(names.split()), does))
        elif kind == "status":
            number, why = fields
            statuses.append(Status(int(number), why))
        elif kind and not kind.startswith("#"):
            raise SystemExit(f"{TABLE.name}: a line of no kind: {line}")
    return Table(tuple(commands), tuple(options), tuple(statuses))
