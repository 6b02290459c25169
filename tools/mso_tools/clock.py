"""How long a search may take: seconds of the wall clock, or a count of moves where runs must be repeatable."""

from __future__ import annotations

import time
from dataclasses import dataclass, field
from typing import Optional


@dataclass
class Clock:
    """A budget of seconds; with `moves`, local search is bounded by that count of moves and nothing by time."""

    seconds: float
    moves: Optional[int] = None
    started: float = field(default_factory=time.monotonic)

    @property
    def elapsed(self) -> float:
        """Seconds since the clock was made."""
        return time.monotonic() - self.started

    def within(self, share: float) -> bool:
        """Whether less than this share of the budget was used; always so where moves are counted."""
        return self.moves is not None or self.elapsed < share * self.seconds

    def slice(self, share: float) -> "Slice":
        """A part of the budget for one local search, which begins now."""
        if self.moves is not None:
            return Slice(moves=max(1, int(share * self.moves)), seconds=None)
        return Slice(moves=None, seconds=share * self.seconds)


@dataclass
class Slice:
    """A bound on one local search: either a count of moves or seconds from its making on."""

    moves: Optional[int]
    seconds: Optional[float]
    started: float = field(default_factory=time.monotonic)

    def used(self, moves: int) -> float:
        """The share that is used after so many moves; 1 and more is the end."""
        if self.moves is not None:
            return moves / self.moves
        return (time.monotonic() - self.started) / self.seconds if self.seconds else 1.0
