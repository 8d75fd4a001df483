"""Draws all orders of moves that a small program can have, as one graph for Graphviz.

    tools/orders LAYOUT PROGRAM [--issues N] [--states N] >GRAPH
    tools/orders examples/layouts/tiny.toml examples/scripts/two_orders.bin --issues 2 | dot -Tsvg >orders.svg

The graph has each state that moves can reach from the opened processor with at most N issues (2), and each move that leads
from one to another, as `cfpp orders` finds them; the input is empty. A state's tooltip is its picture and the moves by which
it is first reached. An end is a state where nothing can be made but a further issue. What was found goes to standard error:
states, moves and ends, and how many orders there are, lists of moves from the start to an end. Above N states (--states,
2,000, as many as Graphviz draws in some minutes) nothing is drawn, and the status is 1.
"""

from __future__ import annotations

import sys
from typing import Optional, Sequence

from .. import command_line
from ..order_drawing import Orders, graph, lengths, searched, tooltips


def counted(number: Optional[int], word: str) -> str:
    """A number of things; None is more than the program counts."""
    return f"more than {2**64 - 1:,} {word}s" if number is None else f"{number:,} {word}{'s' * (number != 1)}"


def told(orders: Orders) -> str:
    """What was found, in a line."""
    counts, (least, most) = orders.counts, lengths(orders)
    parts = [counted(counts.states, "state"), counted(counts.moves, "move"), counted(counts.ends, "end")]
    return ", ".join([*parts, f"{counted(counts.orders, 'order')} of {least} to {most} moves"])


def main(given: Sequence[str]) -> int:
    parser = command_line.parser("tools/orders", __doc__)
    parser.add_argument("layout", metavar="LAYOUT")
    parser.add_argument("program", metavar="PROGRAM")
    parser.add_argument("--issues", type=int, default=2, metavar="N")
    parser.add_argument("--states", type=int, default=2000, metavar="N")
    arguments = parser.parse_args(given)
    orders = searched(arguments.layout, arguments.program, arguments.issues, arguments.states)
    tips = tooltips(arguments.layout, arguments.program, orders.edges)
    sys.stdout.writelines(f"{line}\n" for line in graph(orders, tips))
    print(told(orders), file=sys.stderr)
    return 0
