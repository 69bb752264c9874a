"""Events: moves out of every set that is there, with the men of the cell who take part."""

from __future__ import annotations

import enum
from dataclasses import dataclass
from functools import cached_property
from typing import Optional

from lib.chess import LEAPS, name_of, other
from proving.board import PAWN_HITS, Move, Position, is_attacked, man_of, move_text, write_fen
from proving.cells import Cell
from proving.groups import COLOUR, PIECES, squares_text

NEW_MEN = {"w": 64, "b": 80}  # ids of men who were pawns in the first position


class Kind(enum.Enum):
    PROMOTION = "promotion"
    CAPTURE = "capture"
    STEP = "step"  # a pawn's, to a square that he has not
    LEAVE = "leave"  # a piece's, or a king's


@dataclass(eq=False)
class Event:
    """A move from a position of the cell to one that no cell holds. It is the side's own, or the opponent's."""

    cell: Cell
    position: Position
    move: Move
    after: Position
    is_own: bool

    @cached_property
    def before_ids(self) -> dict[int, int]:
        return self.cell.ids(self.position)

    @property
    def slot(self) -> int:
        """The id of the man who moves."""
        return self.before_ids[self.move.origin]

    @property
    def victim(self) -> Optional[int]:
        return self.before_ids.get(self.move.victim)

    @cached_property
    def ids(self) -> dict[int, int]:
        """The ids by their squares after the move; a promoted man is the side's next new man, whichever pawn he was."""
        found = {s: i for s, i in self.before_ids.items() if s not in (self.move.origin, self.move.victim)}
        first = NEW_MEN[self.position.turn]
        found[self.move.to] = next(n for n in range(first, first + 16) if n not in found.values()) if self.move.promotion else self.slot
        return found

    @property
    def man(self) -> str:
        """The kind of the man who moves, before he does."""
        return self.position.board[self.move.origin].upper()

    @property
    def kind(self) -> Kind:
        if self.move.promotion:
            return Kind.PROMOTION
        if self.victim is not None:
            return Kind.CAPTURE
        return Kind.STEP if self.man == "P" else Kind.LEAVE

    @property
    def key(self) -> tuple:
        """Events of one key are one thing to mend."""
        if self.kind is Kind.PROMOTION:
            return self.kind, self.slot, self.move.to, self.move.promotion if self.is_own else "", self.victim
        if self.kind is Kind.CAPTURE:
            return self.kind, self.victim, self.slot if self.man == "P" else None
        return self.kind, self.slot, self.move.to

    def is_recaptured(self) -> bool:
        """May the man who has just moved be taken at once?"""
        return is_attacked(self.after.board, self.move.to, self.after.turn)

    def condition(self) -> str:
        """The words of an exit line for such positions. Only the search rests on them."""
        if self.kind is Kind.CAPTURE:
            return gone(self.cell, self.victim)
        return f"on:{COLOUR[self.position.turn]}:{self.move.promotion.upper() or self.man}:{name_of(self.move.to)}"

    def __str__(self) -> str:
        return f"{move_text(self.move)} {self.kind.value} {write_fen(self.after)}"


def gone(cell: Cell, victim: int) -> str:
    """A condition that holds where the man of this slot is gone, and the others are there."""
    slot = cell.slots[victim]
    side, words = COLOUR[slot.side], []
    for kind in "PNBRQ":
        squares = slot.squares(kind)
        if not squares:
            continue
        words.append(f"!on:{side}:{kind}:{squares_text(squares)}")
        if kind == "P":
            words.append(f"count:{side}:P:0-{cell.most_of(slot.side, kind) - 1}")
            if any(s // 8 in (1, 6) for s in squares):  # he may be gone by a promotion too, which is another event
                words += [f"count:{side}:{k}:0-{cell.most_of(slot.side, k)}" for k in PIECES]
    return " ".join(words)


def is_silly(event: Event) -> bool:
    """A move of the side's own that is no plan at first: an underpromotion, a square that its man was kept from, or
    a piece given for a protected pawn."""
    if event.kind is Kind.PROMOTION:
        return event.move.promotion != "q" or hangs(event)
    if event.kind is Kind.LEAVE:
        return True
    if event.kind is not Kind.CAPTURE or event.man not in PIECES or not event.is_recaptured():
        return False
    return event.position.board[event.move.victim].upper() == "P"


def hangs(event: Event) -> bool:
    """Does the new queen come up beside the opponent's king, and not beside her own?"""
    board, mover = event.after.board, event.position.turn
    beside = LEAPS["K"][event.move.to]
    return board.index(man_of(other(mover), "K")) in beside and board.index(man_of(mover, "K")) not in beside


def guarded_squares(cell: Cell, side: str) -> set[int]:
    """The squares of the side's pawns that stand fast and that another such pawn protects."""
    fast = {s for slot in cell.slots.values() if slot.side == side and (s := slot.fixed_square()) is not None}
    return {s for s in fast if any(s in PAWN_HITS[side][t] for t in fast)}
