"""The cases: the files of each, and the calls on them."""

from __future__ import annotations

import contextlib
import pathlib
import random
from typing import Callable, Generator, Iterator, List, Optional, Sequence, Tuple

from ..program import TOP
from . import changing, judging, making
from .calling import Caller
from .judging import Call

EXAMPLES = TOP / "examples"
TINY = str(EXAMPLES / "layouts" / "tiny.toml")
LAYOUTS = ["plain", TINY, *(str(EXAMPLES / "layouts" / f"{name}.toml") for name in ("cached", "multiplying", "sidings"))]

# What writes a file of a case, and a case: the arguments of its calls, each of which may look at how the one before went.
Put = Callable[[str, bytes], None]
Case = Generator[List[str], Call, None]


def files(pattern: str) -> List[bytes]:
    return [path.read_bytes() for path in sorted(EXAMPLES.glob(pattern))]


def one_of(draw: random.Random, made: Callable[[random.Random], bytes], kept: Sequence[bytes]) -> bytes:
    """A file made at random, or one of the repository's, changed."""
    return changing.changed(draw, made(draw) if draw.random() < 0.5 else draw.choice(kept))


def some(draw: random.Random, *choices: List[str]) -> List[str]:
    """One of these lists of options."""
    return draw.choice(choices)


def searched(draw: random.Random) -> List[str]:
    """The options of a search of all orders, of few states."""
    most = ["--issues", str(draw.choice([1, 2, 3])), "--states", str(draw.choice([1, 100, 2000]))]
    return [*most, *some(draw, [], ["--show", "edges"]), *some(draw, [], ["--without", draw.choice(making.RULES)])]


def on_program(draw: random.Random, put: Put) -> Case:
    """The calls on a program. What a debugger takes for commands and `conform` for a log is input to any other guest."""
    if draw.random() < 0.5:
        put("input", draw.choice([making.commands, making.log])(draw))
    limit = ["--limit", str(draw.choice([0, 1, 50, 300]))]
    show = some(draw, [], ["--show", "report"], ["--show", "retired"])
    moves = some(draw, [], ["--show", "moves", "--seed", str(draw.getrandbits(32))])
    layout = draw.choice(LAYOUTS)
    yield ["machine", "program", *limit, *show, *some(draw, [], ["--mul"])]
    yield ["run", layout, "program", *limit, *moves, *some(draw, [], ["--every", "7"])]
    yield ["list", "program"]
    yield ["rounds", layout, "program", *limit]
    yield ["time", "nothing", "program", layout, *limit, *some(draw, [], ["--input", "input"])]
    yield ["moves", layout, "program", "--script", "nothing", *limit]
    yield ["debug", layout, "program"]
    yield ["audit", layout, "program", "nothing"]
    yield ["conform", layout, "program", *limit]
    yield ["orders", layout, "program", *searched(draw)]


def of_elf(draw: random.Random, put: Put) -> Case:
    put("program", one_of(draw, making.elf, files("*.elf")))
    yield from on_program(draw, put)


def of_image(draw: random.Random, put: Put) -> Case:
    put("program", one_of(draw, making.image, files("*.bin")))
    yield from on_program(draw, put)


def of_layout(draw: random.Random, put: Put) -> Case:
    put("layout", one_of(draw, making.layout, files("layouts/*.toml")))
    put("program", draw.choice(files("*.bin")))
    yield ["check", "layout"]
    yield ["run", "layout", "program", "--limit", "20"]
    yield ["rounds", "layout", "program", "--limit", "20"]
    yield ["debug", "layout", "program"]
    yield ["time", "nothing", "program", "plain", "layout", "--limit", "20"]
    yield ["moves", "layout", "program", "--script", "nothing", "--limit", "20"]
    yield ["audit", "layout", "program", "nothing"]
    yield ["conform", "layout", "program"]
    yield ["orders", "layout", "program", *searched(draw)]


def of_script(draw: random.Random, put: Put) -> Case:
    put("script", one_of(draw, making.script, files("scripts/*.script")))
    put("program", draw.choice(files("scripts/*.bin")))
    layout = draw.choice(LAYOUTS)
    yield ["run", layout, "program", "--script", "script", "--show", draw.choice(["report", "retired", "moves"])]
    yield ["moves", layout, "program", "--script", "script"]


def of_source(draw: random.Random, put: Put) -> Case:
    put("source", one_of(draw, making.source, files("*.s")))
    yield ["asm", "source"]


def of_delays(draw: random.Random, put: Put) -> Case:
    put("delays", one_of(draw, making.delays, files("delays/*.delays")))
    put("program", one_of(draw, making.image, files("*.bin")))
    layouts = draw.choices(LAYOUTS, k=draw.randint(1, 9))
    shown = some(draw, [], ["--show", "sites"], ["--show", "moves"])
    drawn = some(draw, [], ["--seed", str(draw.getrandbits(32))])
    yield ["time", "delays", "program", *layouts, "--limit", "20", *shown, *drawn, *some(draw, [], ["--guess", "backward"])]


def of_trace(draw: random.Random, put: Put) -> Case:
    """A run is recorded, and its trace is audited as it is and changed."""
    put("program", one_of(draw, making.image, files("*.bin")))
    layout = draw.choice(LAYOUTS)
    schedule = some(draw, [], ["--seed", str(draw.getrandbits(32))])
    run = yield ["run", layout, "program", *schedule, "--limit", str(draw.randint(0, 5)), "--show", "moves"]
    put(judging.RECORDED, judging.trace_of(run.report))
    yield ["audit", layout, "program", judging.RECORDED]
    put("trace", changing.changed(draw, judging.trace_of(run.report)))
    yield ["audit", layout, "program", "trace"]


def of_log(draw: random.Random, put: Put) -> Case:
    """A run on an empty input is recorded, and its trace is judged as a log, as it is and changed; and so is a log made at random."""
    put("program", one_of(draw, making.image, files("*.bin")))
    put("input", b"")
    layout = draw.choice(LAYOUTS)
    run = yield ["run", layout, "program", "--limit", str(draw.randint(0, 5)), "--show", "moves"]
    log = judging.trace_of(run.report)
    for name in (judging.RECORDED, "input"):
        put(name, log)
    yield ["conform", layout, "program"]
    put("input", one_of(draw, making.log, [log]))
    yield ["conform", layout, "program", *some(draw, [], ["--limit", "2"])]


def of_commands(draw: random.Random, put: Put) -> Case:
    session = b"move issue next\nauto 30\nback\nshow\nregs\nmem 7f0ffff0 16\nend\n"
    sessions = [session, *files("*.commands"), *files("debug/*.commands")]
    put("input", one_of(draw, making.commands, sessions))
    put("program", one_of(draw, making.image, files("*.bin")))
    yield ["debug", draw.choice(LAYOUTS), "program"]


def of_words(draw: random.Random, put: Put) -> Case:
    put("program", draw.choice(files("*.bin")))
    yield making.words(draw)


KINDS: List[Callable[[random.Random, Put], Case]] = [of_elf, of_image, of_layout, of_script, of_source, of_delays, of_trace]
KINDS += [of_log, of_commands, of_words]


def try_case(caller: Caller, draw: random.Random) -> Iterator[Tuple[Call, List[str]]]:
    """The calls of a case, with what is wrong with each."""
    for path in caller.folder.iterdir():
        path.unlink()

    def put(name: str, data: bytes) -> None:
        (caller.folder / name).write_bytes(data)

    put("nothing", b"")
    put("input", draw.randbytes(draw.choice([0, 0, 10, 1000])))
    yield from calls_of(caller, draw.choice(KINDS)(draw, put))


def calls_of(caller: Caller, case: Case) -> Iterator[Tuple[Call, List[str]]]:
    """The calls, each made when the one before has ended."""
    call: Optional[Call] = None
    with contextlib.suppress(StopIteration):
        while True:
            call = caller.call(next(case) if call is None else case.send(call))
            yield call, list(judging.faults(call))


def keep(caller: Caller, folder: pathlib.Path) -> None:
    """Keeps the files that a case made."""
    folder.mkdir(parents=True, exist_ok=True)
    for path in caller.folder.iterdir():
        if path.name not in ("output", "report"):
            (folder / path.name).write_bytes(path.read_bytes())
