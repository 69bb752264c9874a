"""Which pawns may move and which men may be taken, told from where the men stand.

A pawn stands fast where an enemy pawn that stands fast is in its way and no enemy pawn may come to a
square that it attacks. That pieces may be sacrificed to it, and that it may be taken by pieces or by the
king, is told apart: these are the warnings of a draft."""

from lib.chess import LEAPS, attacked_from, file_of, forward, other, rank_of, side_of

PIECES = "QRBN"


def colour_of(square):
    """0 on dark squares, 1 on light ones."""
    return (file_of(square) + rank_of(square)) % 2


class Events:
    """The squares that each pawn may come to by its own moves and by captures of pawns."""

    def __init__(self, men):
        self.men = men
        self.pawns = {s: {s} for s, man in men.items() if man in "Pp"}
        self.promotes = set()
        while self.grow():
            pass

    def grow(self):
        """One round; tells whether anything new was found."""
        before = self.count()
        for pawn in self.pawns:
            for square in list(self.pawns[pawn]):
                for target in self.steps(pawn, square):
                    self.arrive(pawn, target)
        return self.count() != before

    def count(self):
        return sum(len(squares) for squares in self.pawns.values()) + len(self.promotes)

    def arrive(self, pawn, square):
        if rank_of(square) in (0, 7):
            self.promotes.add(pawn)
        else:
            self.pawns[pawn].add(square)

    def steps(self, pawn, square):
        """The squares to which the pawn may go from this square."""
        man = self.men[pawn]
        ahead = square + forward(side_of(man))
        found = [ahead] if self.may_be_empty(ahead) else []
        return found + [s for s in LEAPS[man][square] if self.pawn_comes(other(side_of(man)), s)]

    def may_be_empty(self, square):
        """No pawn stands there, or he may move or be taken by a pawn."""
        return square not in self.pawns or not self.is_fast(square)

    def pawn_comes(self, side, square):
        """May a pawn of the side come to stand on the square?"""
        return any(
            square in squares for s, squares in self.pawns.items() if side_of(self.men[s]) == side
        )

    def is_fast(self, pawn):
        """Has the pawn one square for ever, unless pieces or a king change that?"""
        return len(self.pawns[pawn]) == 1 and pawn not in self.promotes and not self.pawn_takes(pawn)

    def pawn_takes(self, pawn):
        """May an enemy pawn take this one?"""
        enemy = other(side_of(self.men[pawn]))
        return any(
            place in LEAPS[self.men[s]][square]
            for s, squares in self.pawns.items()
            if side_of(self.men[s]) == enemy
            for square in squares
            for place in self.pawns[pawn]
        )

    def walls(self):
        """The squares of the pawns that stand fast, by side."""
        return {side: {s for s in self.pawns if side_of(self.men[s]) == side and self.is_fast(s)} for side in "wb"}

    def shut_in(self):
        """The pieces and kings that have no move as long as none of them has gone, and the pawns that stand fast."""
        found = {s for s, man in self.men.items() if man not in "Pp" or self.is_fast(s)}
        while free := {s for s in found if s not in self.pawns and self.has_way_out(s, found)}:
            found -= free
        return found

    def has_way_out(self, square, shut):
        """May the man there go to a square that nobody of his side keeps shut, and no pawn that stands fast attacks?"""
        man = self.men[square]
        side = side_of(man)
        hit = {t for s in self.walls()[other(side)] for t in LEAPS[self.men[s]][s]} if man in "Kk" else set()
        ways = set(attacked_from(self.men, square)) - hit
        return any(t not in shut or side_of(self.men[t]) != side for t in ways)

    def may_be_gone(self, square):
        """Does the draft count with the man's loss? A king has none, and a pawn that stands fast is
        kept; each other man may be taken."""
        man = self.men[square]
        return man not in "Kk" and not (man in "Pp" and self.is_fast(square))

    def takers(self, pawn):
        """The enemy's men, but for pawns, that may take a pawn that stands fast: pieces that may come
        near it, and the king where no pawn that stands fast defends it."""
        enemy = other(side_of(self.men[pawn]))
        found = [
            s for s, man in self.men.items() if side_of(man) == enemy and self.piece_attacks(s, pawn)
        ]
        if not self.is_defended(pawn):
            found += [s for s, man in self.men.items() if side_of(man) == enemy and man in "Kk"]
        return found

    def piece_attacks(self, origin, square):
        kind = self.men[origin].upper()
        return kind in PIECES and (kind != "B" or colour_of(origin) == colour_of(square))

    def is_defended(self, pawn):
        """Does another pawn of the side that stands fast defend this one?"""
        side = side_of(self.men[pawn])
        return any(
            s != pawn and side_of(self.men[s]) == side and self.is_fast(s) and pawn in LEAPS[self.men[s]][s]
            for s in self.pawns
        )

    def captors(self):
        """Pawns that may leave their file by taking a pawn."""
        return sorted(
            s for s, squares in self.pawns.items() if any(file_of(t) != file_of(s) for t in squares)
        )
