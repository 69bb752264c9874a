"""The tables of the command line, TABLE and those behind it: their heads, and which of them has a
position."""

import os

from .bounds import SIDES
from .course import MOST_BEHIND
from .head import CHAINED, LEANING, PLAIN, read_head

# The program and the command that tell the bounds of a table, by its kind.
ASKED = {
    PLAIN: ("freezer", "query"),
    CHAINED: ("freezer", "chainquery"),
    LEANING: ("atlas", "query"),
}


def stamp_of(path):
    """What changes when a file is written anew."""
    found = os.stat(path)
    return found.st_mtime_ns, found.st_size, found.st_ino


class Tables:
    """The tables by their places, TABLE at 0. A file that was written anew is read anew."""

    def __init__(self, calls, paths):
        self.calls = calls
        self.paths = paths
        self.age = 0
        self.stamps = None
        self.heads = []
        self.refresh()

    def refresh(self):
        """Whether the files are others than those that were read; then the answers are dropped."""
        stamps = [stamp_of(path) if os.path.exists(path) else None for path in self.paths]
        if stamps == self.stamps:
            return False
        self.heads = [read_head(path) for path in self.paths]
        self.stamps = stamps
        self.age += 1
        self.calls.forget()
        return True

    def question(self, place, fen):
        """The words that ask a table for its bounds at a position."""
        head = self.heads[place]
        return (*ASKED[head.kind], head.path, fen)

    def leant_on(self, place):
        """The tables that the one at this place leans on: those before a BACK, and all behind TABLE."""
        if self.heads[place].kind == PLAIN:
            return []
        return self.heads[1:place] if place else self.heads[1:]

    def counting(self, place):
        """The sides whose wins in the table at this place count to the mate, as far as the texts tell: each exit
        line by which such a side wins gives its plies, there and in the tables behind."""
        head = self.heads[place]
        if head.kind == CHAINED or (head.kind == LEANING and not self.leant_on(place)):
            return frozenset()
        return frozenset(side for side in self.counting_behind(place) if head.is_numbered(side))

    def counting_behind(self, place):
        """Those whose wins in the tables behind have their plies."""
        backs = self.leant_on(place)
        return frozenset(side for side in SIDES if all(back.is_numbered(side) for back in backs))

    def way(self, command, place, fen, side):
        """The words that ask the table at this place for its best line, or why a bound is none; nothing
        where no command tells it."""
        head, backs = self.heads[place], [back.path for back in self.leant_on(place)]
        if head.kind == PLAIN:
            return ("atlas", command, head.path, fen, side)
        if head.kind == LEANING and 0 < len(backs) <= MOST_BEHIND:
            return ("atlas", command, head.path, fen, side, *backs)
        return None

    def shown(self):
        """What the page is told of each table, and whether its ways are told."""
        return [
            {**head.shown(), "ways": self.way("line", place, "", "") is not None}
            for place, head in enumerate(self.heads)
        ]

    def first(self, fen):
        """The place of the first table that has the position, and what it answers; None and the answer of
        TABLE where no table has it, or TABLE cannot be asked."""
        told = self.calls.ask(*self.question(0, fen))
        if told.status == 0:
            return 0, told
        if told.text.strip() == "outside":
            for place in range(1, len(self.heads)):
                answer = self.calls.ask(*self.question(place, fen))
                if answer.status == 0:
                    return place, answer
        return None, told
