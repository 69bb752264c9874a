"""Positions gathered for a page that is given away: a first one, what each of its moves leads to, and the best
lines from there, each with its bounds and its moves."""

from __future__ import annotations

from collections import deque
from typing import Callable, Iterator

from .answers import Answers
from .asking import Refused
from .bounds import SIDES


class Gathered:
    """The positions by their FENs, each as the page of `explore` is told of it, and by each of its moves the
    position after it. `tell` hears how many there are."""

    def __init__(self, answers: Answers, most: int, tell: Callable[[int], None]):
        self.answers = answers
        self.tell = tell
        self.asking = answers.asking
        self.most = most
        self.positions: dict[str, dict] = {}

    def gather(self, fen: str):
        """Gathers from this position: it, its moves, the best lines behind each; then what is next to these."""
        self.add(fen)
        wanted = deque([fen, *self.after_all(fen)])
        for start in list(wanted):
            wanted.extend(self.on_lines(start))
        while wanted and len(self.positions) < self.most:
            at = wanted.popleft()
            if at not in self.positions:
                self.add(at)
                wanted.extend(self.after_all(at))
        self.link()

    def add(self, fen: str):
        told = self.answers.position(fen)
        if "refused" in told:
            raise Refused(told["refused"])
        self.positions[fen] = told
        self.tell(len(self.positions))

    def after_all(self, fen: str) -> list[str]:
        """The positions after the moves of one that is gathered, best first."""
        return [self.asking.after(fen, move["san"]) for move in self.positions[fen]["moves"]]

    def on_lines(self, fen: str) -> Iterator[str]:
        """The positions of both sides' best lines."""
        for side in SIDES:
            at = fen
            for text in self.asking.line(fen, side):
                at = self.asking.after_text(at, text)
                yield at

    def link(self):
        """Says of each move to which gathered position it leads, if to one."""
        for fen, told in self.positions.items():
            for move in told["moves"]:
                after = self.asking.after(fen, move["san"])
                move["after"] = after if after in self.positions else None
