"""Follows each instruction and each result through a trace, from move to move."""

from __future__ import annotations

import dataclasses
from typing import Dict, List, Optional, Sequence, Tuple

from ..readers.layouts import Layout
from ..readers.lines import ReadFault
from ..readers.moves import Move
from ..readers.pictures import Picture, Stage
from ..readers.times import TimedMove
from ..readers.traces import Group


@dataclasses.dataclass
class Followed:
    """An instruction from its issue on: which one it is, its address and its guess."""

    number: int
    pc: int
    guess: str


@dataclasses.dataclass
class Step:
    """A move, the pictures before and after it, and what it did.

    `instruction` is the one that moved, or that the move acted on. `event` is empty, `killed`, `died`, `retired`, `ended`
    or `gone`, where a dead instruction left. `supplies` are those whose values the instruction took by the move, with the
    register; a value from the register file has no supplier. `timed` is the move of a timed run."""

    group: Group
    before: Picture
    instruction: Optional[Followed] = None
    event: str = ""
    supplies: List[Tuple[Followed, int]] = dataclasses.field(default_factory=list)
    timed: Optional[TimedMove] = None

    @property
    def after(self) -> Picture:
        return self.group.picture

    @property
    def move(self) -> Move:
        return self.group.move

    @property
    def number(self) -> int:
        """The number of the move in its run."""
        return self.timed.number if self.timed else self.group.number

    @property
    def start(self) -> int:
        """When the move starts: without times, each takes one tick, one after another."""
        return self.timed.start if self.timed else self.group.number - 1

    @property
    def finish(self) -> int:
        """When the move finishes, and the picture after it holds."""
        return self.timed.finish if self.timed else self.group.number


def fault(step: Step) -> ReadFault:
    return ReadFault(step.group.line, f"the picture after `{step.move.text}` does not show it")


class Follower:
    """Where each instruction is, and whose each result is."""

    def __init__(self, layout: Layout) -> None:
        self.layout = layout
        self.issued: List[Followed] = []
        self.in_stage: Dict[int, Followed] = {}
        self.in_cell: Dict[Tuple[int, int], Followed] = {}
        # The instruction that a stage's result, or a cached register, comes from.
        self.sender: Dict[int, Optional[Followed]] = {}
        self.keeper: Dict[int, Optional[Followed]] = {}

    def stage_of(self, move: Move) -> int:
        """The stage in which the move finds its instruction or its result; 0 where it names none."""
        if move.kind in ("emit", "leave", "serve"):
            return self.layout.stages
        return 1 if move.kind in ("issue", "exit") else move.stage or 0

    def follow(self, group: Group, before: Picture) -> Step:
        """The step of this group, which comes after the picture `before`."""
        step = Step(group, before)
        getattr(self, group.move.kind)(step, self.stage_of(group.move))
        self.compare(step)
        return step

    def compare(self, step: Step) -> None:
        """The stages hold the instructions that we followed to there."""
        shown = {stage: held.instruction.pc for stage, held in step.after.stages.items() if held.instruction}
        if shown != {stage: followed.pc for stage, followed in self.in_stage.items()}:
            raise fault(step)

    def find(self, step: Step, stage: int) -> Followed:
        """The instruction in a stage becomes that of the step."""
        if stage not in self.in_stage:
            raise fault(step)
        step.instruction = self.in_stage[stage]
        return step.instruction

    def issue(self, step: Step, stage: int) -> None:
        held = step.after.stages.get(stage)
        if not held or not held.instruction:
            raise fault(step)
        step.instruction = Followed(len(self.issued) + 1, held.instruction.pc, held.instruction.guess)
        self.issued.append(step.instruction)
        self.in_stage[stage] = step.instruction
        known = sorted({source.register for source in held.instruction.sources if source and source.value is not None})
        keepers = ((self.keeper.get(register), register) for register in known)
        step.supplies = [(keeper, register) for keeper, register in keepers if keeper]

    def emit(self, _step: Step, stage: int) -> None:
        self.sender[stage] = None

    def climb(self, step: Step, stage: int) -> None:
        self.find(step, stage)
        self.in_stage[stage + 1] = self.in_stage.pop(stage)

    def fall(self, _step: Step, stage: int) -> None:
        self.sender[stage - 1] = self.sender.pop(stage, None)

    def meet(self, step: Step, stage: int) -> None:
        followed = self.find(step, stage)
        held, now = (picture.stages.get(stage) for picture in (step.before, step.after))
        if not held or not held.instruction or not held.result or not now or not now.instruction:
            raise fault(step)
        self.garner(step, held, now, self.sender.get(stage))
        if now.result is None:
            step.event = "killed"
            self.sender.pop(stage, None)
        elif held.result != now.result:
            self.sender[stage] = followed
        if now.instruction.is_dead and not held.instruction.is_dead:
            step.event = "died"

    def garner(self, step: Step, held: Stage, now: Stage, sender: Optional[Followed]) -> None:
        """The sources that have a value now and had none."""
        if not held.instruction or not now.instruction or not sender:
            return
        for old, new in zip(held.instruction.sources, now.instruction.sources):
            if old and new and old.value is None and new.value is not None and (sender, new.register) not in step.supplies:
                step.supplies.append((sender, new.register))

    def execute(self, step: Step, stage: int) -> None:
        self.find(step, stage)

    def send(self, step: Step, stage: int) -> None:
        self.sender[stage] = self.find(step, stage)

    def launch(self, step: Step, stage: int) -> None:
        followed = self.find(step, stage)
        for siding in launched(step):
            self.in_cell[siding, 0] = followed

    def slide(self, step: Step, _stage: int) -> None:
        siding, cell = step.move.siding or 0, step.move.cell or 0
        if (siding, cell) not in self.in_cell:
            raise fault(step)
        step.instruction = self.in_cell.pop((siding, cell))
        self.in_cell[siding, cell + 1] = step.instruction

    def access(self, step: Step, _stage: int) -> None:
        memory = self.layout.memory
        step.instruction = self.in_cell.get((memory, self.layout.sidings[memory].cells - 1))

    def recover(self, step: Step, stage: int) -> None:
        followed = self.find(step, stage)
        ends = [(k, siding.cells - 1) for k, siding in enumerate(self.layout.sidings) if siding.recover == stage]
        for last in ends:
            if self.in_cell.get(last) is followed:
                del self.in_cell[last]

    def leave(self, step: Step, stage: int) -> None:
        self.find(step, stage)
        held = step.before.stages[stage].instruction
        if held and held.is_dead:
            step.event = "gone"
        else:
            step.event = "retired" if step.group.retirement else "ended"
        del self.in_stage[stage]

    def exit(self, step: Step, stage: int) -> None:
        sender = self.sender.pop(stage, None)
        result = step.before.stages[stage].result if stage in step.before.stages else None
        if result is None:
            raise fault(step)
        if result.register is not None:
            self.keeper[result.register] = sender
        else:
            self.keeper.clear()

    def serve(self, step: Step, stage: int) -> None:
        self.find(step, stage)


def launched(step: Step) -> List[int]:
    """The sidings whose first cell is filled by the move."""
    after, before = step.after.sidings, step.before.sidings
    return [k for k, cells in after.items() if cells[0] and not before.get(k, (None,))[0]]


def follow(groups: Sequence[Group], layout: Layout) -> List[Step]:
    """The steps of a trace."""
    follower = Follower(layout)
    before = Picture()
    steps = []
    for group in groups:
        if max(group.picture.stages, default=0) > layout.stages:
            raise ReadFault(group.line, f"a stage above the layout's {layout.stages}")
        steps.append(follower.follow(group, before))
        before = group.picture
    return steps
