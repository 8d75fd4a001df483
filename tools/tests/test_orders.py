"""All orders of a small program: the report and the edges of `orders`, and what is drawn of them."""

from __future__ import annotations

import random
import struct

import pytest

import cfpp_tools
from cfpp_tools.commands import after
from cfpp_tools.order_drawing import Orders, graph, lengths, paths
from cfpp_tools.readers.lines import Lines, ReadFault
from cfpp_tools.readers.moves import read_move
from cfpp_tools.readers.orders import Counts, Edge, OrdersReport, read_edges, read_orders
from cfpp_tools.readers.registers import read_registers
from cfpp_tools.readers.retirements import Retirement

REGISTERS = "".join(" ".join(f"x{r + k:02}=00000000" for k in range(4)) + "\n" for r in range(0, 32, 4))
REST = f"retired 1\nmoves 3\nmeets 0\nkills 0\ndead 0\n{REGISTERS}fetch 00010004\nlane -\n"


def test_counted():
    assert read_orders(Lines("states 109\nmoves 193\nends 1\norders 27905\n")) == OrdersReport(Counts(109, 193, 1, 27905))
    many = read_orders(Lines("states 109\nmoves 193\nends 1\norders more than 18446744073709551615\n"))
    assert many.counts == Counts(109, 193, 1, None)


def test_wrong():
    lines = "wrong after 3 moves: retired\nseen retire 1 00010000 00100093 -\nwanted retire 1 00010000 00100093 x01=00000001\n"
    report = read_orders(Lines(lines + REST))
    assert (report.ending.kind, report.ending.status, report.ending.number, report.ending.what) == ("wrong", 136, 3, "retired")
    assert (report.seen, report.wanted.value) == (Retirement(1, 0x10000, 0x00100093), 1)
    assert (report.retired, report.tally.moves, report.picture.fetch) == (1, 3, 0x10004)
    assert report.registers == read_registers(Lines(REGISTERS))
    assert read_orders(Lines("wrong after 3 moves: stuck\n" + REST)).seen is None


@pytest.mark.parametrize("line, status", [("more than 108 states", 121), ("bad layout: MissingKey lane", 123), ("no memory", 130)])
def test_no_answer(line, status):
    report = read_orders(Lines(f"{line}\n"))
    assert (report.counts, report.ending.status, report.ending.text) == (None, status, line)


@pytest.mark.parametrize("text", ["states 1\nmoves 0\nends 1\n", "wrong after 3 moves: odd\n", "more than 108 states\nretired 0\n"])
def test_no_report(text):
    with pytest.raises(ReadFault):
        read_orders(Lines(text))


# Two moves in either order.
EDGES = "0 1 emit\n0 2 climb 1\n1 3 climb 1\n2 3 emit\n"


def test_edges():
    edges = read_edges(Lines(EDGES))
    assert edges[1] == Edge(0, 2, read_move("climb 1"))
    assert paths(edges) == {0: [], 1: ["emit"], 2: ["climb 1"], 3: ["emit", "climb 1"]}
    with pytest.raises(ReadFault, match="^line 2: "):
        read_edges(Lines("0 1 emit\n0 climb 1\n"))


def test_a_graph():
    orders = Orders(read_edges(Lines(EDGES)), Counts(4, 4, 1, 2))
    assert lengths(orders) == (2, 2)
    lines = list(graph(orders, {1: 'fetch wait\nlane "x"\n'}))
    assert '  s1 [shape=circle, tooltip="fetch wait\\nlane \\"x\\"\\n"];' in lines
    assert '  s3 [shape=doublecircle, fillcolor=gray, tooltip=""];' in lines
    assert '  s2 -> s3 [label="emit", color=goldenrod];' in lines


def test_a_search(examples, built):
    tiny, rules = examples / "layouts" / "tiny.toml", examples / "rules"
    assert cfpp_tools.orders(tiny, rules / "add_twice.bin", issues=2).report.counts == Counts(109, 193, 1, 27905)
    wrong = cfpp_tools.orders(tiny, rules / "one.bin", without="leave:NotDone")
    assert (wrong.status, wrong.report.ending.text) == (136, "wrong after 3 moves: retired")
    script = (rules / "leave_not_done.script").read_text().splitlines()
    assert wrong.output.decode().splitlines() == [line for line in script if not line.startswith("#")]


# addi, beq, loads and stores with and without access, slli, add, fence, jal, jalr, ebreak, ecall, and no instruction.
WORDS = [0x00108093, 0x00100093, 0x00000463, 0x00002083, 0x00212023, 0x00010083, 0x00210023, 0x00109093, 0x001080B3]
WORDS += [0x0FF0000F, 0x008000EF, 0x00008067, 0x00100073, 0x00000073, 0x00000000]


def drawn(number, folder):
    """A program of one to three of these words, drawn from a number."""
    draws = random.Random(number)
    words = [draws.choice(WORDS) for _ in range(draws.randint(1, 3))]
    program = folder / "program"
    program.write_bytes(struct.pack(f"<{len(words)}I", *words))
    return program


def test_no_order_of_a_drawn_program_is_wrong(examples, built, tmp_path):
    tiny = examples / "layouts" / "tiny.toml"
    wrong = [number for number in range(300) if cfpp_tools.orders(tiny, drawn(number, tmp_path), issues=2).status != 0]
    assert wrong == []


def test_the_moves_of_each_state_are_those_of_the_processor(examples, built, tmp_path):
    tiny = examples / "layouts" / "tiny.toml"
    for number in range(10):
        program = drawn(number, tmp_path)
        edges = read_edges(Lines(cfpp_tools.orders(tiny, program, issues=2, show="edges").output.decode()))
        for state, script in paths(edges).items():
            allowed = [choice.move for choice in after(tiny, program, script).report.choices if choice.bar is None]
            may_issue = sum(move.startswith("issue") for move in script) < 2
            wanted = [move for move in allowed if may_issue or move.kind != "issue"]
            assert [edge.move for edge in edges if edge.start == state] == wanted
