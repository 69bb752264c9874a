"""What a slice that is not open yet may be worth to a side that wants to win: a guess by its men."""

from __future__ import annotations

from proving.board import FORWARD, PAWN_HITS
from proving.planes import BESIDE, BLACK, WHITE, union
from proving.slices import Slice

WORTH = {"Q": 9.0, "R": 5.0, "B": 3.0, "N": 3.0, "P": 1.0}
EVEN, POINT = 400, 25  # the price of an equal slice, and of a pawn
LEAST, MOST = 10, 1500


def family(piece: Slice) -> tuple:
    """The pawns and others who stand still, on their squares, and what other men there are."""
    if piece.kept is None:
        fast = tuple((s, m) for s, m in piece.men if m in "Pp" or m not in "Qq" and piece.still == (WHITE if m.isupper() else BLACK))
        piece.kept = [(fast, "".join(sorted(m for s, m in piece.men if (s, m) not in fast))), None]
    return piece.kept[0]


def is_contested(piece: Slice, own: int) -> bool:
    """Are there several queens and rooks, or one of the opponent's?"""
    heavy = [man for _, man in piece.men if man in "QRqr"]
    return len(heavy) > 1 or any(man in ("qr", "QR")[own] for man in heavy)


def has_pawns_alone(piece: Slice) -> bool:
    return all(man in "Pp" for _, man in piece.men)


def is_bare(piece: Slice, side: int) -> bool:
    return not any(man.isupper() == (side == WHITE) for _, man in piece.men)


def worth(piece: Slice, own: int):
    """Within how many plies the side is taken to win in a closed slice, and where; the better its men the sooner."""
    family(piece)
    if piece.kept[1] is None:
        price = EVEN - POINT * int(strength(piece, own) - strength(piece, 1 - own))
        planes = list(piece.valid)
        planes[1 - own] &= ~hanging(piece, own)
        piece.kept[1] = min(max(price, LEAST), MOST), planes
    return piece.kept[1]


def strength(piece: Slice, side: int) -> float:
    return sum(value(piece, s, m) for s, m in piece.men if m.isupper() == (side == WHITE))


def value(piece: Slice, square: int, man: str) -> float:
    if man not in "Pp":
        return WORTH[man.upper()]
    ahead = square // 8 - 1 if man == "P" else 6 - square // 8
    return 1 + ahead * (0.5 if is_passed(piece, square, man) else 0.05)


def is_passed(piece: Slice, square: int, man: str) -> bool:
    """Can no pawn of the opponent's stop or take the pawn on his way?"""
    side = "w" if man == "P" else "b"
    enemy, ahead, board = "p" if man == "P" else "P", square + FORWARD[side], piece.key[0]
    while 0 <= ahead < 64:
        if board[ahead] == enemy or any(board[s] == enemy for s in PAWN_HITS[side][ahead]):
            return False
        ahead += FORWARD[side]
    return True


def hanging(piece: Slice, own: int) -> int:
    """Where the opponent's king stands beside a queen or rook of the side, and its own king does not."""
    heavy = [s for s, m in piece.men if m.upper() in "QR" and m.isupper() == (own == WHITE)]
    return union(BESIDE[1 - own][s] & ~BESIDE[own][s] for s in heavy)
