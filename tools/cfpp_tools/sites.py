"""The places that a move uses. Moves that share none can be made at once, and in either order."""

from __future__ import annotations

from typing import List, Tuple, Union

from .readers.layouts import Layout
from .readers.moves import Move

Site = Union[str, Tuple[Union[str, int], ...]]

# Of each kind what it uses besides stages and cells.
OTHER_SITES = {
    "issue": ("lane", "fetch", "code"),
    "emit": ("lane",),
    "exit": ("fetch",),
    "access": ("memory",),
    "serve": ("memory", "code"),
}


def stages_used(move: Move, layout: Layout) -> Tuple[int, ...]:
    if move.kind in ("issue", "exit"):
        return (1,)
    if move.kind in ("emit", "leave", "serve"):
        return (layout.stages,)
    if move.stage is None:
        return ()
    if move.kind in ("climb", "fall"):
        return (move.stage, move.stage + (1 if move.kind == "climb" else -1))
    return (move.stage,)


def cells_used(move: Move, layout: Layout) -> List[Tuple[int, int]]:
    sidings = list(enumerate(layout.sidings))
    if move.kind == "launch":
        return [(k, 0) for k, siding in sidings if siding.launch == move.stage]
    if move.kind == "recover":
        return [(k, siding.cells - 1) for k, siding in sidings if siding.recover == move.stage]
    if move.siding is not None and move.cell is not None:
        return [(move.siding, move.cell), (move.siding, move.cell + 1)]
    if move.kind == "access":
        return [(layout.memory, layout.sidings[layout.memory].cells - 1)]
    return []


def sites(move: Move, layout: Layout) -> List[Site]:
    """The places that a move uses on this layout."""
    stages: List[Site] = [("stage", stage) for stage in stages_used(move, layout)]
    cells: List[Site] = [("cell", *cell) for cell in cells_used(move, layout)]
    return stages + cells + list(OTHER_SITES.get(move.kind, ()))


def name_of(site: Site) -> str:
    """A place, as one says it."""
    if isinstance(site, str):
        return {"lane": "the lane", "memory": "the memory", "code": "the code"}.get(site, site)
    return f"stage {site[1]}" if site[0] == "stage" else f"cell {site[2]} of siding {site[1]}"
