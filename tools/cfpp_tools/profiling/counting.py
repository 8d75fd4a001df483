"""Counts by address: the instructions that retired, and the moves of instructions and of their results."""

from __future__ import annotations

import collections
from typing import Callable, Counter, Dict, List

from ..readers.lines import ReadFault
from .shown import Shown

# Whose a move is that belongs to no instruction: a value that the register file sends, and how it goes on.
REGISTER_FILE = b""


def instruction_at(picture: bytes, at: int) -> bytes:
    """The address of the instruction in the stage whose line begins there."""
    begin = picture.index(b"| ", at) + 2
    return picture[begin : begin + 8]


def in_stage(picture: bytes, stage: bytes) -> bytes:
    """The address of the instruction in a stage."""
    return instruction_at(picture, picture.index(b"\nstage %b " % stage))


class MoveCounts:
    """Whose each move was, by address. A result is of the instruction that sent it, until it leaves or is killed."""

    def __init__(self) -> None:
        self.counts: Counter[bytes] = collections.Counter()
        self.senders: Dict[int, bytes] = {}
        self.before = b""
        self.number = 0
        self.owners: Dict[bytes, Callable[[bytes, bytes], bytes]] = {
            **dict.fromkeys((b"meet", b"execute", b"launch", b"recover"), lambda stage, after: in_stage(after, stage)),
            **dict.fromkeys((b"leave", b"serve"), lambda _, after: instruction_at(self.before, self.before.index(b"\nstage "))),
            **{b"issue": lambda _, after: in_stage(after, b"1"), b"climb": self.climb, b"send": self.send, b"emit": self.emit},
            **{b"fall": self.fall, b"exit": lambda _, after: self.senders.pop(1), b"slide": self.slide, b"access": self.access},
        }

    @staticmethod
    def climb(stage: bytes, after: bytes) -> bytes:
        return in_stage(after, b"%d" % (int(stage) + 1))

    def send(self, stage: bytes, after: bytes) -> bytes:
        self.senders[int(stage)] = sender = in_stage(after, stage)
        return sender

    def emit(self, _: bytes, after: bytes) -> bytes:
        """The value comes into the highest stage, which is the first one of the picture."""
        begin = after.index(b"\nstage ") + 7
        self.senders[int(after[begin : after.index(b" ", begin)])] = REGISTER_FILE
        return REGISTER_FILE

    def fall(self, stage: bytes, _: bytes) -> bytes:
        self.senders[int(stage) - 1] = sender = self.senders.pop(int(stage))
        return sender

    @staticmethod
    def slide(named: bytes, after: bytes) -> bytes:
        siding, cell = named.split()
        line = after[after.index(b"\nsiding %b " % siding) + 1 :].split(b"\n", 1)[0]
        return line.split()[int(cell) + 3][:8]

    @staticmethod
    def access(_: bytes, after: bytes) -> bytes:
        """The operation that has its answer."""
        end = after.index(b"*")
        return after[end - 8 : end]

    def add(self, shown: Shown) -> None:
        """Counts some moves."""
        owners, counts = self.owners, self.counts
        line = shown.before + 1
        for number, kind, named, after in shown.moves:
            self.number += 1
            try:
                counts[owners[kind](named, after)] += 1
            except (IndexError, KeyError, ValueError):
                raise ReadFault(line, f"the pictures do not show whose the move {kind.decode()} is") from None
            if int(number) != self.number:
                raise ReadFault(line, f"move {self.number} is missing")
            self.before = after
            line += 1 + after.count(b"\n")


class Counts:
    """The retired instructions, by address and word, and the moves of a report."""

    def __init__(self) -> None:
        self.words: Counter[bytes] = collections.Counter()
        self.moves = MoveCounts()

    def add(self, shown: Shown) -> None:
        self.words.update(shown.retired)
        self.moves.add(shown)

    @property
    def retired(self) -> Counter[bytes]:
        """The retired instructions by address: a word there may have changed."""
        found: Counter[bytes] = collections.Counter()
        for key, count in self.words.items():
            found[key[:8]] += count
        return found
