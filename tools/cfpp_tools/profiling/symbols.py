"""The symbols of a program: what its listing has as the nearest label at or below each instruction."""

from __future__ import annotations

import collections
from typing import Counter, Dict, Mapping

from ..readers.listings import Listed

NO_LABEL, NOT_LISTED = "(no label)", "(not listed)"


class Symbols:
    """The symbol of each address."""

    def __init__(self, listing: Mapping[int, Listed]) -> None:
        self.names = {address: listed.label or NO_LABEL for address, listed in listing.items()}
        self.starts = {address for address, listed in listing.items() if listed.label and not listed.offset}

    def name(self, address: int) -> str:
        """The symbol that an address belongs to."""
        return self.names.get(address, NOT_LISTED)

    def begins(self, address: int) -> bool:
        """Whether the symbol is that of this very address."""
        return address in self.starts

    def sums(self, counts: Mapping[bytes, int], others: Mapping[bytes, str]) -> Counter[str]:
        """The counts of addresses by symbol; `others` names the keys that are no addresses."""
        found: Counter[str] = collections.Counter()
        for key, count in counts.items():
            found[others[key] if key in others else self.name(int(key, 16))] += count
        return found


def ordered(counts: Mapping[str, int]) -> Dict[str, int]:
    """The counts, the largest first, and those that are equal by name."""
    return dict(sorted(counts.items(), key=lambda item: (-item[1], item[0])))
