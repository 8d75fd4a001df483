"""Who called whom, as far as the retired jumps show it, and how many instructions retired in each chain of calls."""

from __future__ import annotations

from typing import Dict, Iterable, Iterator, List, Optional, Tuple

from .symbols import Symbols

JAL, JALR = 0x6F, 0x67
# The last two digits of the word of a jump.
JUMPS = {b"6f", b"ef", b"67", b"e7"}
# The registers in which calls leave the address to return to, by convention.
LINKS = (1, 5)


class Chain:
    """A symbol, and those that called one another up to it."""

    def __init__(self, symbol: str, caller: Optional["Chain"] = None) -> None:
        self.symbol = symbol
        self.caller = caller
        self.called: Dict[str, Chain] = {}
        self.instructions = 0

    def to(self, symbol: str) -> "Chain":
        """The chain that goes on with a symbol."""
        if symbol not in self.called:
            self.called[symbol] = Chain(symbol, self)
        return self.called[symbol]


class Calls:
    """The chain of calls after each retired instruction. Frames have a chain and the address that it returns to."""

    def __init__(self, symbols: Symbols) -> None:
        self.symbols = symbols
        self.root = Chain("")
        self.frames: List[Tuple[Chain, int]] = []
        self.jump: Optional[Tuple[int, int]] = None

    def add(self, retired: Iterable[bytes]) -> None:
        """Follows some instructions, each by its address and its word with a space between."""
        count = 0
        follows_jump = self.jump is not None or not self.frames
        for key in retired:
            if follows_jump:
                self.count(count)
                count = 0
                self.arrive(int(key[:8], 16))
            count += 1
            follows_jump = key[15:] in JUMPS
            if follows_jump:
                self.jump = int(key[:8], 16), int(key[9:], 16)
        self.count(count)

    def count(self, instructions: int) -> None:
        if self.frames:
            self.frames[-1][0].instructions += instructions

    def arrive(self, target: int) -> None:
        """A jump came to this address."""
        if not self.frames:
            self.frames.append((self.root.to(self.symbols.name(target)), -1))
            return
        if self.jump:
            address, word = self.jump
            self.jump = None
            if (word >> 7 & 31) in LINKS and target != address + 4:
                self.frames.append((self.frames[-1][0].to(self.symbols.name(target)), address + 4))
            elif word & 0x7F == JAL or not self.return_to(target):
                self.go_on(target)

    def return_to(self, target: int) -> bool:
        """Whether a call returns to this address, and then ends that call."""
        for at in range(len(self.frames) - 1, 0, -1):
            if self.frames[at][1] == target:
                del self.frames[at:]
                return True
        return False

    def go_on(self, target: int) -> None:
        """A jump that neither calls nor returns. To the start of another symbol it is a call whose caller has ended. Into the midst of
        one it is a long jump, to the last call of this symbol if there is one."""
        chain, back = self.frames[-1]
        symbol = self.symbols.name(target)
        if symbol == chain.symbol:
            return
        holders = [at for at, (held, _) in enumerate(self.frames) if held.symbol == symbol]
        if holders and not self.symbols.begins(target):
            del self.frames[holders[-1] + 1 :]
        else:
            self.frames[-1] = (chain.caller or self.root).to(symbol), back

    def folded(self) -> Iterator[str]:
        """A line for each chain in which instructions retired: its symbols, separated by semicolons, and their number."""
        left: List[Tuple[str, Chain]] = [(chain.symbol, chain) for chain in reversed(list(self.root.called.values()))]
        while left:
            names, chain = left.pop()
            if chain.instructions:
                yield f"{names} {chain.instructions}"
            left += [(f"{names};{called.symbol}", called) for called in reversed(list(chain.called.values()))]
