"""Chess read from docs/proofs/chess.md, plainly and slowly: positions, attack, legal moves, FEN."""

FILES = "abcdefgh"
KINDS = "KQRBNP"
PROMOTIONS = ("", "q", "r", "b", "n")
STRAIGHT = ((0, 1), (0, -1), (1, 0), (-1, 0))
SLANTED = ((1, 1), (1, -1), (-1, 1), (-1, -1))
JUMPS = ((1, 2), (2, 1), (2, -1), (1, -2), (-1, -2), (-2, -1), (-2, 1), (-1, 2))


def file_of(square):
    return square % 8


def rank_of(square):
    """Counted from 0."""
    return square // 8


def name_of(square):
    return FILES[file_of(square)] + str(rank_of(square) + 1)


def square_of(name):
    return FILES.index(name[0]) + 8 * (int(name[1]) - 1)


def shifted(square, files, ranks):
    """The square so many files and ranks away, or None beyond the edge."""
    file, rank = file_of(square) + files, rank_of(square) + ranks
    return 8 * rank + file if 0 <= file < 8 and 0 <= rank < 8 else None


def walk(square, step):
    """The squares of one direction, in order, up to the edge."""
    found = []
    while (square := shifted(square, *step)) is not None:
        found.append(square)
    return found


def places(square, steps):
    return [s for step in steps if (s := shifted(square, *step)) is not None]


LINES = {
    "R": [[walk(s, d) for d in STRAIGHT] for s in range(64)],
    "B": [[walk(s, d) for d in SLANTED] for s in range(64)],
    "Q": [[walk(s, d) for d in STRAIGHT + SLANTED] for s in range(64)],
}
LEAPS = {
    "K": [places(s, STRAIGHT + SLANTED) for s in range(64)],
    "N": [places(s, JUMPS) for s in range(64)],
    "P": [places(s, ((-1, 1), (1, 1))) for s in range(64)],
    "p": [places(s, ((-1, -1), (1, -1))) for s in range(64)],
}


def other(turn):
    return "b" if turn == "w" else "w"


def side_of(man):
    return "w" if man.isupper() else "b"


def forward(side):
    return 8 if side == "w" else -8


class Position:
    """Men by square (capital letters are White's), the side to move, the target or None."""

    def __init__(self, men, turn, target=None):
        self.men, self.turn, self.target = men, turn, target

    def key(self):
        return tuple(sorted(self.men.items())), self.turn, self.target


def attacked_from(men, square):
    """The squares that the man on this square attacks."""
    man = men[square]
    kind = man.upper()
    if kind in LINES:
        found = []
        for line in LINES[kind][square]:
            for place in line:
                found.append(place)
                if place in men:
                    break
        return found
    return LEAPS[man if man == "p" else kind][square]


def attackers(men, square, side):
    """The squares of this side's men that attack the square."""
    return [s for s, man in men.items() if side_of(man) == side and square in attacked_from(men, s)]


def king_square(men, side):
    king = "K" if side == "w" else "k"
    return next(s for s, man in men.items() if man == king)


def in_check(men, side):
    return bool(attackers(men, king_square(men, side), other(side)))


def pawn_of(side):
    return "P" if side == "w" else "p"


def beside(square):
    return places(square, ((-1, 0), (1, 0)))


def target_cause(men, turn, target):
    """What is wrong with a target: None, "place", or "capturer" where only that pawn is missing."""
    enemy = other(turn)
    if rank_of(target) != (5 if turn == "w" else 2):
        return "place"
    passed, origin = target - forward(turn), target + forward(turn)
    if target in men or origin in men or men.get(passed) != pawn_of(enemy):
        return "place"
    if not any(men.get(s) == pawn_of(turn) for s in beside(passed)):
        return "capturer"
    return None


def invalid_cause(position):
    """The first condition of a valid position that fails, or None."""
    men = position.men
    everyone = list(men.values())
    if everyone.count("K") != 1 or everyone.count("k") != 1:
        return "kings"
    if any(man in "Pp" and rank_of(s) in (0, 7) for s, man in men.items()):
        return "pawn rank"
    if any(sum(side_of(man) == side for man in everyone) > 16 for side in "wb"):
        return "too many"
    if position.target is not None and target_cause(men, position.turn, position.target):
        return "ep place"
    if in_check(men, other(position.turn)):
        return "opponent in check"
    return None


def destinations(position, square):
    """Where the man on the square may go, his own king's safety aside."""
    men, turn = position.men, position.turn
    mine = lambda s: s in men and side_of(men[s]) == turn
    if men[square] not in "Pp":
        return [s for s in attacked_from(men, square) if not mine(s)]
    found = [
        s for s in attacked_from(men, square)
        if (s in men and not mine(s)) or s == position.target
    ]
    ahead = square + forward(turn)
    if ahead not in men:
        found.append(ahead)
        home = 1 if turn == "w" else 6
        if rank_of(square) == home and ahead + forward(turn) not in men:
            found.append(ahead + forward(turn))
    return found


def is_en_passant(position, move):
    origin, destination, _ = move
    return (
        position.men[origin] in "Pp"
        and destination == position.target
        and file_of(origin) != file_of(destination)
    )


def is_capture(position, move):
    return move[1] in position.men or is_en_passant(position, move)


def after(position, move):
    """The position after the move; nobody asks here whether it is legal."""
    origin, destination, promotion = move
    turn = position.turn
    men = dict(position.men)
    man = men.pop(origin)
    if is_en_passant(position, move):
        del men[destination - forward(turn)]
    if promotion:
        man = promotion.upper() if turn == "w" else promotion
    men[destination] = man
    target = None
    if man in "Pp" and abs(destination - origin) == 16:
        if any(men.get(s) == pawn_of(other(turn)) for s in beside(destination)):
            target = (origin + destination) // 2
    return Position(men, other(turn), target)


def candidate_moves(position):
    """All moves but for the own king's safety, in order."""
    found = []
    for square, man in position.men.items():
        if side_of(man) != position.turn:
            continue
        for destination in destinations(position, square):
            last = man in "Pp" and rank_of(destination) in (0, 7)
            for promotion in PROMOTIONS[1:] if last else PROMOTIONS[:1]:
                found.append((square, destination, promotion))
    return sorted(found, key=lambda m: (m[0], m[1], PROMOTIONS.index(m[2])))


def legal_moves(position):
    """By origin, destination, promotion: queen, rook, bishop, knight."""
    return [m for m in candidate_moves(position) if is_safe(position, m)]


def is_safe(position, move):
    return not in_check(after(position, move).men, position.turn)


def move_text(move):
    return name_of(move[0]) + name_of(move[1]) + move[2]


def read_move(text):
    return square_of(text[:2]), square_of(text[2:4]), text[4:]


def write_fen(position):
    ranks = []
    for rank in range(7, -1, -1):
        cells = "".join(position.men.get(8 * rank + file, ".") for file in range(8))
        for empty in range(8, 0, -1):
            cells = cells.replace("." * empty, str(empty))
        ranks.append(cells)
    target = "-" if position.target is None else name_of(position.target)
    return f"{'/'.join(ranks)} {position.turn} - {target} 0 1"


def read_fen(text):
    """Reads a FEN that is known to be right; castling rights and clocks are not kept."""
    fields = text.split()
    men = {}
    for rank, cells in zip(range(7, -1, -1), fields[0].split("/")):
        file = 0
        for cell in cells:
            if cell.isdigit():
                file += int(cell)
            else:
                men[8 * rank + file] = cell
                file += 1
    target = None if fields[3] == "-" else square_of(fields[3])
    return Position(men, fields[1], target)
