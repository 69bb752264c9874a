"""The one place that asks the programs about a position, for the page and for the UCI engine: what the first
table that has it says of it and of each of its moves, and the best line of a side from it."""

from __future__ import annotations

from dataclasses import dataclass

from .bounds import Bound, read_bounds
from .calls import Answer, Calls
from .head import CHAINED
from .listing import Listing
from .moves import Move
from .tables import Tables
from .walks import Walks, stages_of

ENDS = ("mate", "stalemate")


def turn_of(fen: str) -> str:
    """The side to move, as the FEN that the program has accepted names it."""
    return "white" if [word for word in fen.split(" ") if word][1] == "w" else "black"


class Refused(Exception):
    """The program refuses a position or a move, in its own words."""


@dataclass
class Seen:
    """What is known of a position: the coordinates of each legal move by its notation, the end where there is
    none, the place of the first table that has the position, if one does, and what that table says."""

    fen: str
    texts: dict[str, str]
    end: str | None
    place: int | None
    answer: Answer

    @property
    def side(self) -> str:
        return turn_of(self.fen)

    @property
    def lines(self) -> list[str]:
        return self.answer.lines if self.place is not None else []

    @property
    def bounds(self) -> dict[str, Bound]:
        return read_bounds(self.lines)


class Asking:
    """Asks the programs of these calls about the positions of these tables."""

    def __init__(self, calls: Calls, tables: Tables):
        self.calls = calls
        self.tables = tables
        self.listing = Listing(calls, tables)
        self.walks = Walks(calls, tables, self.listing)

    def at(self, fen: str) -> Seen:
        """What is known of a position. The questions that most positions need are asked at once."""
        sans, texts, *_ = self.calls.ask_all(self.questions(fen))
        if sans.status != 0:
            raise Refused(sans.text.strip())
        end = sans.text.strip() if sans.text.strip() in ENDS else None
        named = {} if end else dict(zip(sans.text.split(), texts.text.split()))
        return Seen(fen, named, end, *self.tables.first(fen))

    def moves(self, seen: Seen) -> list[Move]:
        """The legal moves, best first for the side to move, with what the tables say after each."""
        return self.listing.moves(seen.fen, seen.place, seen.side, seen.texts) if seen.texts else []

    def questions(self, fen: str) -> list[tuple[str, ...]]:
        table = self.tables.heads[0]
        each = [] if table.kind == CHAINED else [("atlas", "each", table.path, fen)]
        return [("freezer", "sans", fen), ("freezer", "moves", fen), self.tables.question(0, fen), *each]

    def played(self, fen: str, san: str) -> tuple[str, str]:
        """A move in algebraic notation by its coordinates, and the position after it."""
        played = self.calls.ask("freezer", "move", fen, san)
        if played.status != 0:
            raise Refused(played.text.strip())
        text, after = played.lines
        return text, after

    def after(self, fen: str, san: str) -> str:
        """The position after a move in algebraic notation."""
        return self.played(fen, san)[1]

    def after_text(self, fen: str, text: str) -> str:
        """The position after a move by coordinates."""
        sans, texts = self.calls.ask_all([("freezer", "sans", fen), ("freezer", "moves", fen)])
        if sans.status != 0:
            raise Refused(sans.text.strip())
        named = dict(zip(texts.text.split(), sans.text.split()))
        if text not in named:
            raise Refused(f"{text} is no legal move")
        return self.after(fen, named[text])

    def line(self, fen: str, side: str) -> list[str]:
        """The moves of a side's best line, by coordinates, on through the tables behind; none where no line
        is told."""
        place, lines = self.walks.asked("line", fen, side)
        return [] if place is None else [move for stage in stages_of(lines) for move in stage["moves"]]
