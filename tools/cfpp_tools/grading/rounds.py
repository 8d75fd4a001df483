"""Rounds in a script: the moves after each comment `# round` or `# round N`. The moves of a round share no place."""

from __future__ import annotations

import pathlib
import re
from typing import Dict, List, Optional, Tuple

from ..program import Name
from ..readers.layouts import Layout
from ..readers.lines import ReadFault
from ..readers.moves import Move, read_move
from ..sites import Site, name_of, sites

# No other comment begins a round, whatever it says of rounds.
ROUND = re.compile(r"#\s*round(?:\s+[0-9]+)?\s*")

Numbered = Tuple[int, Move]


def moves_of(script: Name) -> Tuple[List[Numbered], List[List[Numbered]]]:
    """The moves before the first round, and those of each round, with the numbers of their lines."""
    before: List[Numbered] = []
    rounds: List[List[Numbered]] = []
    for number, line in enumerate(pathlib.Path(script).read_text(errors="replace").splitlines(), 1):
        words = " ".join(line.split())
        if ROUND.fullmatch(line):
            rounds.append([])
        elif words and not line.startswith("#"):
            (rounds[-1] if rounds else before).append((number, read_move(words, number)))
    return before, rounds


def shared(moves: List[Numbered], layout: Layout) -> Optional[str]:
    """The first two moves of a round that share a place."""
    taken: Dict[Site, Move] = {}
    for number, move in moves:
        used = sites(move, layout)
        twice = next((site for site in used if site in taken), None)
        if twice is not None:
            return f"line {number}: `{move.text}` and `{taken[twice].text}` of one round share {name_of(twice)}"
        taken.update(dict.fromkeys(used, move))
    return None


def round_fault(script: Name, layout: Layout, most: int) -> Optional[str]:
    """What is wrong with the rounds of a script."""
    try:
        before, rounds = moves_of(script)
    except ReadFault as fault:
        return str(fault)
    if before:
        return f"line {before[0][0]}: `{before[0][1].text}` is before the first round"
    faults = [found for moves in rounds if (found := shared(moves, layout))]
    if len(rounds) > most:
        faults.append(f"{len(rounds)} rounds, and at most {most} are wanted")
    return faults[0] if faults else None
