"""Planes: all places of both kings at once, as one whole number of 4,096 bits. Bit 64 * w + b stands for White's king
on w and Black's on b, so one operation asks 4,096 positions with the same other men."""

from __future__ import annotations

from functools import lru_cache

from lib.chess import LEAPS, LINES
from proving.board import PAWN_HITS

WHITE, BLACK = 0, 1
SIDES = "wb"
ALL = (1 << 4096) - 1
COLUMN = sum(1 << 64 * row for row in range(64))
ON = (
    tuple(((1 << 64) - 1) << 64 * s for s in range(64)),
    tuple(COLUMN << s for s in range(64)),
)  # by side and square: its king stands there


def union(planes) -> int:
    found = 0
    for plane in planes:
        found |= plane
    return found


def on_any(side: int, squares) -> int:
    return union(ON[side][s] for s in squares)


TAKEN = tuple(ON[WHITE][s] | ON[BLACK][s] for s in range(64))
BESIDE = tuple(tuple(on_any(side, LEAPS["K"][s]) for s in range(64)) for side in (WHITE, BLACK))
APART = ALL & ~union(ON[WHITE][s] & (ON[BLACK][s] | BESIDE[BLACK][s]) for s in range(64))
NOT_A, NOT_H, NOT_1, NOT_8 = (
    tuple(ALL & ~on_any(side, [s for s in range(64) if is_edge(s)]) for side in (WHITE, BLACK))
    for is_edge in (lambda s: s % 8 == 0, lambda s: s % 8 == 7, lambda s: s < 8, lambda s: s > 55)
)
STEP = (64, 1)


def spread(side: int, plane: int) -> int:
    """Where the side's king comes by one step, from any bit of the plane."""
    step = STEP[side]
    beside = (plane & NOT_H[side]) << step | (plane & NOT_A[side]) >> step
    row = plane | beside
    return beside | (row & NOT_8[side]) << 8 * step | (row & NOT_1[side]) >> 8 * step


def shifted(side: int, plane: int, file: int, rank: int) -> int:
    """Where the side's king comes by this step."""
    step = STEP[side]
    if file:
        plane = (plane & NOT_H[side]) << step if file > 0 else (plane & NOT_A[side]) >> step
    if rank:
        plane = (plane & NOT_8[side]) << 8 * step if rank > 0 else (plane & NOT_1[side]) >> 8 * step
    return plane


@lru_cache(maxsize=None)
def between(origin: int, to: int) -> int:
    """Where no king stands between two squares of a line."""
    files, ranks = to % 8 - origin % 8, to // 8 - origin // 8
    far = max(abs(files), abs(ranks))
    step = (ranks // far) * 8 + files // far
    return ALL & ~union(TAKEN[origin + step * n] for n in range(1, far))


@lru_cache(maxsize=None)
def hit_along(king: int, line: tuple[int, ...]) -> int:
    """Where the king of this side stands on the line, and the other one not before him."""
    found, before = 0, 0
    for square in line:
        found |= ON[king][square] & ~before
        before |= ON[1 - king][square]
    return found


@lru_cache(maxsize=200_000)
def hits(man: str, square: int, lengths: tuple[int, ...]) -> int:
    """Where a man attacks the other side's king; the lengths are those of his lines up to the first other man."""
    side = WHITE if man.isupper() else BLACK
    king, kind = 1 - side, man.upper()
    if kind == "P":
        return on_any(king, PAWN_HITS[SIDES[side]][square])
    if kind == "N":
        return on_any(king, LEAPS["N"][square])
    lines = LINES[kind][square]
    return union(hit_along(king, tuple(line[:length])) for line, length in zip(lines, lengths))


def attacks(board: str, men: list[tuple[int, str]], side: int) -> int:
    """Where a man of the side attacks the other side's king. Kings themselves are not on the board."""
    found = 0
    for square, man in men:
        if man.isupper() == (side == WHITE):
            lengths = () if man in "PpNn" else tuple(reach(board, line) for line in LINES[man.upper()][square])
            found |= hits(man, square, lengths)
    return found


def reach(board: str, line) -> int:
    """How many squares of the line a man attacks, the first other man's included."""
    for place, square in enumerate(line, 1):
        if board[square] != ".":
            return place
    return len(line)


def squares_of(side: int, plane: int) -> set[int]:
    """The squares of the side's king in the plane."""
    return {s for s in range(64) if plane & ON[side][s]}
