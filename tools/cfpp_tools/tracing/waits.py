"""Which move had to wait for which, as a graph for Graphviz.

Moves of one row finish at the same time. The edges of one longest chain are bold."""

from __future__ import annotations

from typing import Dict, List, Set, Tuple

from .following import Step
from .trace import Trace
from .waiting import Awaited, waits

# The colours of the moves of one instruction, taken in turn.
COLOURS = "lightblue lightyellow lightpink palegreen lavender wheat".split()


def longest_chain(awaited: Awaited, time: Dict[int, int]) -> Set[Tuple[int, int]]:
    """The edges of a chain that ends with the first of the latest moves."""
    if not time:
        return set()
    at = max(time, key=lambda number: (time[number], -number))
    edges = set()
    while awaited[at]:
        before = max(awaited[at], key=lambda number: time[number])
        edges.add((before, at))
        at = before
    return edges


def node(step: Step) -> str:
    colour = COLOURS[step.instruction.number % len(COLOURS)] if step.instruction else "white"
    return f'  m{step.number} [label="{step.number} {step.move.text}", fillcolor={colour}];'


def ranks(time: Dict[int, int]) -> List[str]:
    """The moves of each time are in one row."""
    rows: Dict[int, List[str]] = {}
    for number, row in time.items():
        rows.setdefault(row, []).append(f"m{number}")
    return [f"  {{ rank=same; {'; '.join(names)}; }}" for names in rows.values()]


def write(trace: Trace) -> List[str]:
    """The lines of the graph."""
    awaited, time = waits(trace.steps, trace.layout)
    chain = longest_chain(awaited, time)
    edges = [(other, number) for number, others in awaited.items() for other in others]
    return [
        "digraph waits {",
        '  node [shape=box, style=filled, fontname="sans-serif"];',
        *map(node, trace.steps),
        *ranks(time),
        *(f"  m{edge[0]} -> m{edge[1]}{' [penwidth=3]' if edge in chain else ''};" for edge in edges),
        "}",
    ]
