"""A slice: all positions with the same men beside the kings, as planes; and the moves from it to other slices."""

from __future__ import annotations

from collections.abc import Iterator
from typing import Optional

from lib.chess import LEAPS, LINES
from proving.board import EMPTY, FORWARD, NOWHERE, PAWN_HITS, Position, beside, men_of
from proving.planes import ALL, APART, BLACK, ON, SIDES, TAKEN, WHITE, attacks, between, spread

Key = "tuple[str, int]"  # the board without its kings, and the square that a pawn has just passed over


class Slice:
    """The planes by side to move: which positions are valid; and of the wins that are sure, then of those that are
    guessed, where they are, where none is, and since when."""

    __slots__ = (
        "key", "men", "valid", "stale", "steps", "kings", "before", "kings_before", "win", "free", "layers", "is_open", "kept",
        "still",
    )

    def __init__(self, key: Key, still: Optional[int] = None):
        board, target = self.key = key
        self.men = list(men_of(board))
        self.still = still  # this side moves its king and its queens alone
        apart = APART
        for square, _ in self.men:
            apart &= ~TAKEN[square]
        hit = [attacks(board, self.men, side) for side in (WHITE, BLACK)]
        self.valid = [apart & ~hit[WHITE], apart & ~hit[BLACK]]
        if target != NOWHERE:  # it is the move of the side that may take
            self.valid[WHITE if target // 8 == 2 else BLACK] = 0
        self.stale = [self.valid[WHITE] & ~hit[BLACK], self.valid[BLACK] & ~hit[WHITE]]  # until moves are known
        self.steps: list[list] = [[], []]  # by side: the slice after a move, and the plane in which it can be played
        self.kings: list[list] = [[], []]  # by side: the slice after a king's move, and the plane where he comes to
        self.before: list[list] = [[], []]
        self.kings_before: list[list] = [[], []]
        self.is_open, self.kept = False, None
        self.reset()

    def reset(self) -> None:
        self.win, self.free, self.layers = [0] * 4, 2 * list(self.valid), [{} for _ in range(4)]

    def guess_anew(self) -> None:
        """Forgets what was guessed: of the guessed wins those are left that are sure."""
        self.win[2:], self.free[2:], self.layers[2:] = self.win[:2], self.free[:2], [{}, {}]

    def has(self, position: Position) -> bool:
        return bool(self.valid[SIDES.index(position.turn)] >> bit_of(position) & 1)


def bit_of(position: Position) -> int:
    return 64 * position.board.index("K") + position.board.index("k")


def key_of(position: Position) -> Key:
    return position.board.replace("K", EMPTY).replace("k", EMPTY), position.target


def position_of(key: Key, side: int, bit: int) -> Position:
    men = list(key[0])
    men[bit // 64], men[bit % 64] = "K", "k"
    return Position("".join(men), SIDES[side], key[1])


def bits_of(plane: int) -> Iterator[int]:
    while plane:
        low = plane & -plane
        yield low.bit_length() - 1
        plane ^= low


class Book:
    """The slices that are known, by their keys. Where a side has more queens than `queens` and the other none, its other
    men need not move; where it is calm, its rooks, bishops and knights only take."""

    def __init__(self, own: Optional[int] = None, queens: int = 0, is_calm: bool = False):
        self.own, self.queens, self.is_calm = own, queens, is_calm
        self.slices: dict[Key, Slice] = {}
        self.made: list[Slice] = []  # the same in their order

    def get(self, key: Key) -> Slice:
        found = self.slices.get(key)
        if found is None:
            self.slices[key] = found = Slice(key, self.still(key[0]))
            self.made.append(found)
        return found

    def still(self, board: str) -> Optional[int]:
        if self.own is None or board.count("Qq"[self.own]) <= self.queens or "qQ"[self.own] in board:
            return None
        return self.own

    def open(self, piece: Slice) -> None:
        """Finds the moves from the slice."""
        piece.is_open = True
        for side in (WHITE, BLACK):
            if not piece.valid[side]:
                continue
            for key, plane in steps(piece, side, piece.still == side, self.is_calm and side == self.own):
                after = self.get(key)
                piece.steps[side].append((after, plane))
                after.before[side].append((piece, plane))
            for key, plane in king_steps(piece, side):
                after = self.get(key)
                piece.kings[side].append((after, plane))
                after.kings_before[side].append((piece, plane))
            piece.stale[side] &= ~movable(piece, side)


def movable(piece: Slice, side: int) -> int:
    """Where the side has a legal move."""
    found, kings = 0, 0
    for after, plane in piece.steps[side]:
        found |= after.valid[1 - side] & plane
    for after, plane in piece.kings[side]:
        kings |= after.valid[1 - side] & plane
    return found | spread(side, kings)


def king_steps(piece: Slice, side: int) -> Iterator[tuple[Key, int]]:
    """The moves of the side's king: the key after each, and the plane of the squares where he comes to."""
    board, _ = piece.key
    yield (board, NOWHERE), ALL
    for square, man in piece.men:
        if man.isupper() != (side == WHITE):
            yield (without(board, square), NOWHERE), ON[side][square]


def without(board: str, square: int) -> str:
    return board[:square] + EMPTY + board[square + 1:]


def moved(board: str, origin: int, to: int, man: str) -> str:
    men = list(board)
    men[origin], men[to] = EMPTY, man
    return "".join(men)


def steps(piece: Slice, side: int, is_frozen: bool = False, is_calm: bool = False) -> Iterator[tuple[Key, int]]:
    """The moves of the side's men beside its king: the key after each, and the plane in which no king is in the way.
    Frozen men but queens have none, and calm pieces but queens only take."""
    board, target = piece.key
    for square, man in piece.men:
        if man.isupper() != (side == WHITE) or is_frozen and man not in "Qq":
            continue
        if man in "Pp":
            yield from pawn_steps(board, target, square, man, side)
            continue
        kind = man.upper()
        lines = LINES[kind][square] if kind in LINES else [[to] for to in LEAPS[kind][square]]
        for line in lines:
            for to in line:
                if not is_calm or kind == "Q" if board[to] == EMPTY else board[to].isupper() != man.isupper():
                    yield (moved(board, square, to, man), NOWHERE), between(square, to) if kind in LINES else ALL
                if board[to] != EMPTY:
                    break


def pawn_steps(board: str, target: int, square: int, man: str, side: int) -> Iterator[tuple[Key, int]]:
    forward = FORWARD[SIDES[side]]
    ahead = square + forward
    ends = []
    if board[ahead] == EMPTY:
        ends.append((board, ahead))
        if square // 8 == (1 if side == WHITE else 6) and board[ahead + forward] == EMPTY:
            after = moved(board, square, ahead + forward, man)
            enemy = "p" if man == "P" else "P"
            passed = ahead if any(after[s] == enemy for s in beside(ahead + forward)) else NOWHERE
            yield (after, passed), ALL & ~TAKEN[ahead]
    for to in PAWN_HITS[SIDES[side]][square]:
        if board[to] != EMPTY and board[to].isupper() != man.isupper():
            ends.append((board, to))
        elif to == target:
            ends.append((without(board, to - forward), to))
    kinds = "QRBN" if ahead // 8 in (0, 7) else "P"
    for start, to in ends:
        for kind in kinds:
            yield (moved(start, square, to, kind if side == WHITE else kind.lower()), NOWHERE), ALL
