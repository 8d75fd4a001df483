"""The points that no other beats, and their plot."""

from __future__ import annotations

import dataclasses
import subprocess
from typing import Dict, Iterable, List, Sequence

from .command_line import Stop

FRONT = """set terminal svg size 900,560 font "sans,12" background "white"
set xlabel "{across}"
set ylabel "{up}"
set offsets graph 0.12, graph 0.04, graph 0.04, graph 0.08
set grid
set key outside top center horizontal
plot $points using 1:2 with points pt 7 ps {size} lc rgb "#9ab0c8" title "{count} layouts", \\
    $front using 1:2 with linespoints pt 7 ps 0.7 lw 2 lc rgb "#c03020" title "those that no other beats", \\
    $front using 1:2:3 with labels right offset -0.5,-0.7 font "sans,9" notitle
"""


@dataclasses.dataclass(frozen=True)
class Point:
    """A layout as a point: what it costs, what it needs, and its name."""

    across: float
    up: float
    name: str


def front_of(points: Iterable[Point]) -> List[Point]:
    """The points for which no other is smaller in one and not greater in the other, from the left to the right."""
    found: List[Point] = []
    for point in sorted(points, key=lambda point: (point.across, point.up)):
        if not found or point.up < found[-1].up or (point.across, point.up) == (found[-1].across, found[-1].up):
            found.append(point)
    return found


def labels_of(front: Sequence[Point]) -> Dict[Point, str]:
    """One label for each place of the front: the first of the names there, and how many more there are."""
    places: Dict[object, List[Point]] = {}
    for point in front:
        places.setdefault((point.across, point.up), []).append(point)
    return {names[0]: names[0].name + (f" and {len(names) - 1} more" if names[1:] else "") for names in places.values()}


def gnuplot(text: str) -> str:
    """The picture that gnuplot draws."""
    try:
        made = subprocess.run(["gnuplot"], input=text, capture_output=True, text=True, check=False)
    except FileNotFoundError as missing:
        raise Stop("gnuplot is not installed") from missing
    if made.returncode:
        raise Stop(f"gnuplot: {made.stderr.strip()}")
    return made.stdout


def escaped(text: str) -> str:
    """A text as gnuplot takes it in quotes, where an underscore would lower what follows."""
    return text.replace("_", r"\\_").replace('"', "'")


def block(name: str, lines: Iterable[str]) -> str:
    """Data that gnuplot reads from its commands."""
    return f"${name} << END\n" + "".join(f"{line}\n" for line in lines) + "END\n"


def drawing(points: Sequence[Point], across: str, up: str) -> str:
    """The plot of the points, in which the front alone has names."""
    labels = labels_of(front_of(points))
    blocks = block("points", (f"{point.across} {point.up}" for point in points))
    blocks += block("front", (f'{point.across} {point.up} "{escaped(label)}"' for point, label in labels.items()))
    size = 0.7 if len(points) < 200 else 0.3
    return gnuplot(blocks + FRONT.format(across=escaped(across), up=escaped(up), size=size, count=f"{len(points):,}"))
