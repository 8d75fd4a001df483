"""How a run is made, as a table names it: `rule`, `seed N`, `rounds`, `delays FILE` or `delays FILE seed N`, each perhaps with
`guess RULE` after it."""

from __future__ import annotations

import re
from typing import List, NamedTuple, Optional, Sequence

from ..command_line import Stop

FORM = re.compile(r"(?:rule|(rounds)|seed ([0-9]+)|delays (.+?)(?: seed ([0-9]+))?)(?: guess ([a-z]+))?")
GUESS_RULES = ("any", "next", "taken", "backward", "wait")
SEED = re.compile(r"(^| )seed [0-9]+(?=$| guess )")


class Schedule(NamedTuple):
    """The command that makes the run, the file of delays of `time`, the seed, and the guess rule."""

    command: str
    delays: str
    seed: Optional[int]
    guess: Optional[str]


def read_schedule(text: str) -> Schedule:
    """The schedule of a text."""
    found = FORM.fullmatch(text)
    if not found:
        raise Stop(f"`{text}` is no schedule")
    rounds, of_moves, delays, of_delays, guess = found.groups()
    seed = of_moves or of_delays
    return Schedule(rounds or ("time" if delays else "run"), delays or "", int(seed) if seed else None, guess)


def without_seed(text: str) -> str:
    """The same for all seeds."""
    return SEED.sub(r"\1seeds", text)


def schedules_of(
    rule: bool, rounds: bool, delays: Sequence[str], seeds: Sequence[int], guesses: Sequence[str]
) -> List[str]:
    """The schedules of a sweep. Seeds draw the delays of `time` where there are any, and otherwise the moves of `run`."""
    unknown = next((guess for guess in guesses if guess not in GUESS_RULES), None)
    if unknown is not None:
        raise Stop(f"`{unknown}` is no guess rule: they are {', '.join(GUESS_RULES)}")
    drawn = [f"seed {seed}" for seed in seeds]
    timed = [f"delays {file}{seed and ' '}{seed}" for file in delays for seed in drawn or [""]]
    found = ["rule"] * rule + drawn * (not delays) + ["rounds"] * rounds + timed
    return [f"{schedule} guess {guess}" for schedule in found for guess in guesses] or found
