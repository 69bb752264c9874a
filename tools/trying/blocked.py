"""Random blocked endings: pairs of pawns that block each other, both kings, and minor pieces."""

import random
from collections.abc import Iterator
from typing import Optional

from lib.chess import other, side_of
from proving.board import EMPTY, FORWARD, PAWN_HITS, Position, is_attacked, legal_moves, man_of, men_of, write_fen

PAIRS = (2, 5)
MOST_PIECES = 2  # of a side


def random_blocked(seed: int, pieces: Optional[range] = None) -> Iterator[str]:
    """FENs without end, the same for the same seed; with a range, those with so many minor pieces."""
    rng = random.Random(seed)
    while True:
        position = one(rng)
        if position is not None and (pieces is None or sum(man in "BNbn" for man in position.board) in pieces):
            yield write_fen(position)


def one(rng: random.Random) -> Optional[Position]:
    """Men by chance, where no pawn can move or take, nobody is in check, and the side to move has a move."""
    men = [EMPTY] * 64
    for file in rng.sample(range(8), rng.randint(*PAIRS)):
        square = 8 * rng.randint(1, 5) + file
        men[square], men[square + FORWARD["w"]] = "P", "p"
    free = [s for s in range(64) if men[s] == EMPTY]
    pieces = ["K", "k"] + [man_of(side, rng.choice("BN")) for side in "wb" for _ in range(rng.randint(0, MOST_PIECES))]
    for man, square in zip(pieces, rng.sample(free, len(pieces))):
        men[square] = man
    position = Position("".join(men), rng.choice("wb"), -1)
    return position if is_quiet(position) else None


def is_quiet(position: Position) -> bool:
    board = position.board
    if any(is_attacked(board, board.index(man_of(side, "K")), other(side)) for side in "wb"):
        return False
    if any(board[to] != EMPTY and side_of(board[to]) != side for s, man in men_of(board) for side in "wb" if man == man_of(side, "P") for to in PAWN_HITS[side][s]):
        return False
    return bool(legal_moves(position))
