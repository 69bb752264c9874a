"""Chess for the search, on strings of 64 letters: a1, b1 .. h8, a point where nobody stands.

Quicker than lib.chess, whose squares, lines and leaps it uses. Only the search trusts it, no verdict does.
"""

from collections.abc import Iterator
from functools import lru_cache
from typing import NamedTuple

from lib.chess import LEAPS, LINES, name_of, other, side_of, square_of

EMPTY = "."
NOWHERE = -1
FORWARD = {"w": 8, "b": -8}
PAWN_HITS = {"w": LEAPS["P"], "b": LEAPS["p"]}


class Position(NamedTuple):
    """Who stands where, the side to move, and the square that a pawn has just passed over, or NOWHERE."""

    board: str
    turn: str
    target: int


class Move(NamedTuple):
    """A move; the victim is the square of the man taken, or NOWHERE."""

    origin: int
    to: int
    promotion: str
    victim: int


def man_of(side: str, kind: str) -> str:
    return kind if side == "w" else kind.lower()


def reaches(kind: str, square: int) -> list[list[int]]:
    """The lines of squares on which a man other than a pawn goes from here."""
    return LINES[kind][square] if kind in LINES else [[to] for to in LEAPS[kind][square]]


def is_attacked(board: str, square: int, by: str) -> bool:
    knight, king, pawn = (man_of(by, kind) for kind in "NKP")
    if any(board[s] == knight for s in LEAPS["N"][square]) or any(board[s] == king for s in LEAPS["K"][square]):
        return True
    if any(board[s] == pawn for s in PAWN_HITS[other(by)][square]):
        return True
    return any(is_hit_on_lines(board, square, by, kind) for kind in "RB")


def is_hit_on_lines(board: str, square: int, by: str, kind: str) -> bool:
    hitters = man_of(by, kind), man_of(by, "Q")
    for line in LINES[kind][square]:
        for s in line:
            if board[s] != EMPTY:
                if board[s] in hitters:
                    return True
                break
    return False


def pawn_moves(position: Position, square: int) -> Iterator[Move]:
    board, turn, target = position
    step = FORWARD[turn]
    ends = []
    if board[square + step] == EMPTY:
        ends.append((square + step, NOWHERE))
        if square // 8 == (1 if turn == "w" else 6) and board[square + 2 * step] == EMPTY:
            ends.append((square + 2 * step, NOWHERE))
    for to in PAWN_HITS[turn][square]:
        if board[to] != EMPTY and side_of(board[to]) != turn:
            ends.append((to, to))
        elif to == target:
            ends.append((to, to - step))
    kinds = "qrbn" if (square + step) // 8 in (0, 7) else ("",)
    return (Move(square, to, kind, victim) for to, victim in ends for kind in kinds)


def piece_moves(position: Position, square: int) -> Iterator[Move]:
    board = position.board
    for line in reaches(board[square].upper(), square):
        for to in line:
            if board[to] == EMPTY:
                yield Move(square, to, "", NOWHERE)
                continue
            if side_of(board[to]) != position.turn:
                yield Move(square, to, "", to)
            break


def play(position: Position, move: Move) -> Position:
    """The position after the move; nobody asks here whether it is legal."""
    board, turn, _ = position
    men = list(board)
    man = men[move.origin]
    men[move.origin] = EMPTY
    if move.victim != NOWHERE:
        men[move.victim] = EMPTY
    men[move.to] = man_of(turn, move.promotion.upper()) if move.promotion else man
    target = NOWHERE
    if man in "Pp" and abs(move.to - move.origin) == 16:
        enemy = man_of(other(turn), "P")
        if any(men[s] == enemy for s in beside(move.to)):
            target = (move.to + move.origin) // 2
    return Position("".join(men), other(turn), target)


def beside(square: int) -> list[int]:
    return [s for s in (square - 1, square + 1) if 0 <= s < 64 and s // 8 == square // 8]


@lru_cache(maxsize=20_000)
def legal_moves(position: Position) -> tuple[tuple[Move, Position], ...]:
    """The legal moves, each with the position after it. Walks come to the same positions again and again."""
    found = []
    king = man_of(position.turn, "K")
    for square, man in enumerate(position.board):
        if man == EMPTY or side_of(man) != position.turn:
            continue
        moves = pawn_moves if man in "Pp" else piece_moves
        for move in moves(position, square):
            after = play(position, move)
            if not is_attacked(after.board, after.board.index(king), after.turn):
                found.append((move, after))
    return tuple(found)


def men_of(board: str) -> Iterator[tuple[int, str]]:
    return ((square, man) for square, man in enumerate(board) if man != EMPTY)


def read_fen(text: str) -> Position:
    """Reads a FEN that is known to be right; a target that no pawn can capture on is dropped."""
    fields = text.split()
    rows = ["".join(EMPTY * int(c) if c.isdigit() else c for c in row) for row in reversed(fields[0].split("/"))]
    board, turn = "".join(rows), fields[1]
    target = NOWHERE if fields[3] == "-" else square_of(fields[3])
    if target != NOWHERE and not any(board[s] == man_of(turn, "P") for s in beside(target - FORWARD[turn])):
        target = NOWHERE
    return Position(board, turn, target)


def write_fen(position: Position) -> str:
    rows = []
    for rank in range(7, -1, -1):
        row = position.board[8 * rank:8 * rank + 8]
        for empty in range(8, 0, -1):
            row = row.replace(EMPTY * empty, str(empty))
        rows.append(row)
    target = "-" if position.target == NOWHERE else name_of(position.target)
    return f"{'/'.join(rows)} {position.turn} - {target} 0 1"


def move_text(move: Move) -> str:
    return name_of(move.origin) + name_of(move.to) + move.promotion
