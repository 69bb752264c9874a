"""Random valid positions of 2 to 32 men, made without the program under test."""

from lib.chess import (
    LEAPS, LINES, Position, attackers, candidate_moves, forward, in_check, invalid_cause,
    king_square, other, pawn_of, rank_of, shifted, side_of,
)

KINDS = "PPPPPPPPNNBBRRQ"
# Stockfish keeps at most 256 moves of a position.
MOST_MOVES = 250


def random_position(random):
    """A valid position; every second one has something of its own: see THEMES."""
    while True:
        position = place_men(random, random.randint(2, 32))
        theme = random.choice(THEMES)
        if theme is not None:
            position = theme(random, position)
        if invalid_cause(position) is None and len(candidate_moves(position)) <= MOST_MOVES:
            return position


def place_men(random, count):
    """Kings and others anywhere, at most 16 of a side, pawns off the last ranks."""
    squares = random.sample(range(64), count)
    men = {squares[0]: "K", squares[1]: "k"}
    kinds = random.choice((KINDS, KINDS, KINDS + "PPPPPPPP", "QRBNP", "NBRQ"))
    left = {"w": 15, "b": 15}
    for square in squares[2:]:
        side = random.choice([s for s in "wb" if left[s]])
        left[side] -= 1
        kind = random.choice(kinds)
        while kind == "P" and rank_of(square) in (0, 7):
            kind = random.choice("NBRQ")
        men[square] = kind if side == "w" else kind.lower()
    return Position(men, random.choice("wb"))


def with_double_step(random, position):
    """A pawn has just advanced two squares, and another stands beside it."""
    men, turn = dict(position.men), position.turn
    file = random.randrange(8)
    target = 8 * (5 if turn == "w" else 2) + file
    passed, origin = target - forward(turn), target + forward(turn)
    neighbour = shifted(passed, random.choice((-1, 1)), 0)
    if neighbour is None:
        return position
    for square in (target, origin, passed, neighbour):
        if men.get(square, "-") in "Kk":
            return position
        men.pop(square, None)
    men[passed], men[neighbour] = pawn_of(other(turn)), pawn_of(turn)
    if random.random() < 0.5:
        aim_at_king(random, men, turn, (neighbour, passed))
    return Position(men, turn, target)


def aim_at_king(random, men, turn, through):
    """Stands the mover's king and an enemy piece at the two ends of a line through a square."""
    king = king_square(men, turn)
    start = random.choice(through)
    kind = random.choice("RB")
    lines = LINES[kind][start]
    one, two = random.choice(((0, 1), (2, 3)) if kind == "R" else ((0, 3), (1, 2)))
    near, far = ([s for s in lines[i] if s not in men] for i in (one, two))
    if near and far:
        del men[king]
        men[random.choice(near)] = "K" if turn == "w" else "k"
        man = random.choice((kind, "Q"))
        men[random.choice(far)] = man.lower() if turn == "w" else man


def with_advanced_pawn(random, position):
    """A pawn of the mover stands one step before its last rank."""
    men, turn = dict(position.men), position.turn
    rank = 6 if turn == "w" else 1
    square = 8 * rank + random.randrange(8)
    if men.get(square, "-") not in "Kk":
        men[square] = pawn_of(turn)
    return Position(men, turn)


def with_pin_or_check(random, position):
    """One or two enemy pieces stand on lines of the mover's king, others stand between or not."""
    men, turn = dict(position.men), position.turn
    king = king_square(men, turn)
    for _ in range(random.randint(1, 3)):
        kind = random.choice("RBQN")
        if kind == "N":
            line = LEAPS["N"][king]
        else:
            line = random.choice(LINES[kind][king])
        free = [s for s in line if men.get(s, "-") not in "Kk"]
        if free:
            men[random.choice(free)] = kind.lower() if turn == "w" else kind
    return Position(men, turn)


THEMES = (
    None, None, None, with_double_step, with_double_step, with_advanced_pawn, with_pin_or_check,
)


def features(position):
    """Which of these the position has: they are counted in the last line of a tool."""
    men, turn = position.men, position.turn
    found = []
    checks = len(attackers(men, king_square(men, turn), other(turn)))
    if checks:
        found.append("check")
    if checks > 1:
        found.append("double check")
    if position.target is not None:
        found.append("en passant target")
    if any(m[2] for m in candidate_moves(position)):
        found.append("promotion")
    if not checks and any(is_pinned(men, s, turn) for s in men if side_of(men[s]) == turn):
        found.append("pin")
    return found


def is_pinned(men, square, turn):
    """Without this man his king would be in check."""
    if men[square] in "Kk":
        return False
    return in_check({s: man for s, man in men.items() if s != square}, turn)
