"""Turns: ways to search one claim share the processor time, so that the quickest is not kept waiting for long."""

from __future__ import annotations

from collections.abc import Callable
from dataclasses import dataclass, field

from proving.tables import OutOfTime, used

LEAST = 4.0  # processor seconds of a first turn; a later one has as many as all before it


@dataclass
class Turn:
    """One way to search: it works until these processor seconds, or raises OutOfTime; True if it has found what it can."""

    work: Callable[[float], bool]
    weight: float = 1.0
    taken: float = 0.0

    def last(self) -> float:
        """How long its next turn may last."""
        return max(LEAST * self.weight, self.taken)


@dataclass
class Turns:
    """Ways to search, the first ones first where several had their share."""

    left: list[Turn] = field(default_factory=list)

    def work(self, until: float, is_enough: Callable[[], bool]) -> None:
        """Lets each have its turns until the seconds are used up, or there is enough."""
        while self.left and used() < until and not is_enough():
            turn, began = min(self.left, key=lambda turn: turn.taken / turn.weight), used()
            alone = len(self.left) == 1
            try:
                if turn.work(until if alone else min(until, began + turn.last())):
                    self.left.remove(turn)
            except OutOfTime:
                pass
            turn.taken += used() - began
