"""What is known of a move, in the words of the UCI protocol: from the side to move, as engines count."""

from __future__ import annotations

import re

from board.bounds import HOLD, NONE, WIN, opponent
from board.moves import Move

WON = 20_000  # hundredths of a pawn for a win that is not counted to the mate, as engines show one of tables


def score_of(move: Move, side: str, counting: frozenset[str]) -> str:
    """The words for a move of this side by the table that has the position before it, in which the wins of
    these sides count to the mate; none where nothing is known of it."""
    if not move.bounds:
        return ""
    own, other = move.bounds[side], move.bounds[opponent(side)]
    if own.kind == WIN:
        return won(own.plies + 1, 1, is_counted(move, counting, side))
    if other.kind == WIN:
        return won(other.plies + 1, -1, is_counted(move, counting, opponent(side)))
    if own.kind == other.kind == NONE:
        return ""
    return "score cp 0" + bound_of(own.kind, other.kind)


def won(plies: int, sign: int, counted: bool) -> str:
    """A win within so many plies from the position before the move; moves to the mate are those of the side
    that gives it."""
    if counted:
        return f"score mate {sign * ((plies + 1) // 2 if sign > 0 else plies // 2)}"
    return f"score cp {sign * (WON - plies)}"


def is_counted(move: Move, counting: frozenset[str], side: str) -> bool:
    """Whether the win behind a move counts to the mate: as the wins of the table do, or those of the tables
    behind it, or as an exit line with plies of its own says."""
    if move.counting is not None:
        return side in move.counting
    if move.exit:
        return bool(re.search(r" wins \d+$", move.said))
    return side in counting


def bound_of(own: str, other: str) -> str:
    """A draw where both hold; where one side alone does, at least or at most that for the side to move."""
    if own == other == HOLD:
        return ""
    return " lowerbound" if own == HOLD else " upperbound"
