"""All orders of moves that a small program can have, as a graph of states."""

from __future__ import annotations

import dataclasses
import graphlib
import re
import tempfile
from typing import Dict, Iterator, List, Sequence, Tuple

from . import commands
from .command_line import Stop
from .program import Name, call
from .readers.lines import Lines
from .readers.orders import Counts, Edge, read_edges

# Moves of one kind have one colour.
COLOURS = {"issue": "forestgreen", "emit": "goldenrod", "fall": "goldenrod", "exit": "goldenrod", "climb": "royalblue"}
COLOURS.update({"leave": "royalblue", "meet": "red"})

# The lines of a report that belong to a picture.
PICTURE = re.compile(r"(?:fetch|lane|cache|stage|siding) .*\n")


@dataclasses.dataclass(frozen=True)
class Orders:
    """The moves between the states, by their numbers from 0, the start, in the order of the search; and what was counted."""

    edges: Sequence[Edge]
    counts: Counts


def searched(layout: Name, program: Name, issues: int, most: int) -> Orders:
    """The orders with at most this many issues, which reach at most `most` states."""
    answer = commands.orders(layout, program, issues=issues, states=most, show="edges")
    if answer.report is None:
        raise Stop(f"cfpp orders: status {answer.status}")
    if answer.report.counts is None:
        raise Stop(f"cfpp orders: {answer.report.ending.text if answer.report.ending else 'no answer'}")
    return Orders(read_edges(Lines(answer.output.decode())), answer.report.counts)


def paths(edges: Sequence[Edge]) -> Dict[int, List[str]]:
    """For each state the moves by which it is first reached."""
    found: Dict[int, List[str]] = {0: []}
    for edge in edges:
        found.setdefault(edge.end, [*found[edge.start], edge.move.text])
    return found


def pictures(layout: Name, program: Name, path: Sequence[str]) -> List[str]:
    """The picture after each of these moves, and before them, as the report of a run has it."""
    with tempfile.NamedTemporaryFile("w", suffix=".script") as file:
        file.writelines(f"{move}\n" for move in path)
        file.flush()
        report = call(["run", layout, program, "--script", file.name, "--show", "moves"]).report
    groups = re.split(r"^move [0-9]+ .*\n", report, flags=re.MULTILINE)
    return ["".join(PICTURE.findall(group)) for group in groups]


def tooltips(layout: Name, program: Name, edges: Sequence[Edge]) -> Dict[int, str]:
    """For each state its picture, and the script that leads to it. A run shows all states that it passes, so one for each
    path that no other continues is enough."""
    scripts = paths(edges)
    number = {tuple(script): state for state, script in scripts.items()}
    inner = {tuple(script[:-1]) for script in scripts.values()}
    shown: Dict[int, str] = {}
    for script in scripts.values():
        if tuple(script) in inner and script:
            continue
        for made, picture in enumerate(pictures(layout, program, script)):
            state = number.get(tuple(script[:made]))
            if made and state is not None:
                shown[state] = picture + "\n" + "".join(f"{move}\n" for move in script[:made])
    return shown


def quoted(text: str) -> str:
    """A text as Graphviz has it between quotation marks; a line ends with the two signs that it reads so."""
    return '"' + text.replace("\\", "\\\\").replace('"', '\\"').replace("\n", "\\n") + '"'


def node(state: int, tooltip: str, is_end: bool) -> str:
    """The line of a state: the start is a square, and an end has a second rim."""
    shape = "square" if state == 0 else "doublecircle" if is_end else "circle"
    fill = ", fillcolor=gray" if is_end else ""
    return f"  s{state} [shape={shape}{fill}, tooltip={quoted(tooltip)}];"


def graph(orders: Orders, tips: Dict[int, str]) -> Iterator[str]:
    """The lines of the graph, for Graphviz."""
    going = {edge.start for edge in orders.edges}
    yield "digraph orders {"
    yield '  node [label="", width=0.15, style=filled, fillcolor=white];'
    yield '  edge [fontname="sans-serif", fontsize=9, arrowsize=0.5];'
    yield from (node(state, tips.get(state, ""), state not in going) for state in range(orders.counts.states))
    yield from (
        f'  s{edge.start} -> s{edge.end} [label="{edge.move.text}", color={COLOURS.get(edge.move.kind, "black")}];'
        for edge in orders.edges
    )
    yield "}"


def lengths(orders: Orders) -> Tuple[int, int]:
    """The fewest and the most moves of an order."""
    reached: Dict[int, List[int]] = {state: [] for state in range(orders.counts.states)}
    for edge in orders.edges:
        reached[edge.start].append(edge.end)
    found: Dict[int, Tuple[int, int]] = {}
    for state in graphlib.TopologicalSorter(reached).static_order():
        parts = [found[after] for after in reached[state]]
        found[state] = (1 + min(least for least, _ in parts), 1 + max(most for _, most in parts)) if parts else (0, 0)
    return found[0]
