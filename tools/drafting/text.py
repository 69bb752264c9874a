"""The text of a draft, with what each group costs and what it leaves out."""

from drafting.events import PIECES
from drafting.groups import NAMES, WHOLE, groups_of, kept_near
from lib.chess import name_of, side_of, write_fen
from lib.rules import LARGEST_SET, possible_targets

SIDES = {"white": "w", "black": "b"}
NEW = {3: "with what was promoted on the last rank alone", 2: "without what is promoted"}  # at so many moves
REACHES = (3, 2, 1, 0)


def size_of(groups):
    size = 2 + len(possible_targets(groups))
    for group in groups:
        size *= group.choices
    return size


class Draft:
    """Groups for a position, and what was done that they fit."""

    def __init__(self, position, events, side):
        self.position, self.events, self.side = position, events, side
        free = {"white": "b", "black": "w"}.get(side)
        self.groups = groups_of(position, events, free)
        self.wished = size_of(self.groups)
        self.cuts = []
        self.fit()

    def fit(self):
        """Keeps men near where they stand until the set is small enough, first those who have no move. Where it is
        not with each man on his square, those of the other side, or Black's with no such side, may not be gone: that is enough."""
        shut = self.events.shut_in()
        for index in range(len(self.groups)):
            if self.groups[index].men and size_of(self.groups) > LARGEST_SET and set(self.groups[index].men) <= shut:
                self.cut(index, 0)
        for own, reach, only_new in self.order() + [(False, WHOLE, False)]:
            for index in self.wide(own):
                if size_of(self.groups) <= LARGEST_SET:
                    return
                if not only_new or self.groups[index].new:
                    self.cut(index, reach)

    def order(self):
        """Whose men are kept within how many moves, first things first, and whether new men alone are meant. The side
        that is asked about chooses its own moves, so its men go first, behind what the other's pawns become beyond
        the last rank; the other's men stay free as long as they can. With no such side both go step by step."""
        if self.side:
            own = [(True, reach, False) for reach in REACHES]
            return [(False, 3, True), *own, (False, 2, True)] + [(False, reach, False) for reach in REACHES]
        return [(own, reach, False) for reach in REACHES for own in (True, False)]

    def wide(self, own):
        """The groups of the side, or of the other one, those with the most choices first."""
        first = self.side or "white"
        found = [
            i for i, g in enumerate(self.groups) if (g.colour == first) == own and g.choices > 1
        ]
        return sorted(found, key=lambda i: -self.groups[i].choices)

    def cut(self, index, reach):
        group = self.groups[index]
        near = kept_near(group, self.position.men, reach, self.events.walls())
        if len(near.states) >= near.most and near.choices < group.choices:
            self.groups[index] = near
            self.cuts.append((group, reach, size_of(self.groups)))

    def lines(self):
        return (
            [f"# A first text for {write_fen(self.position)}", f"# position: {write_fen(self.position)}"]
            + self.about_size()
            + self.warnings()
            + ["freezer 1"]
            + [line for group in self.groups if group.most for line in self.about(group)]
        )

    def about_size(self):
        size = size_of(self.groups)
        lines = [f"# {size:,} numbers: {bytes_text(16 * size)} of memory to build, a file of {bytes_text(8 * size)}."]
        if self.cuts:
            lines.append(f"# With every man free it would be {self.wished:,}, above {LARGEST_SET:,}. So, in this order:")
        for group, reach, left in self.cuts:
            lines.append(f"#   {self.named(group)} {self.kept(group, reach)}; that leaves {left:,}")
        if self.cuts:
            lines.append(
                "# Bounds stay true in chess: a side gives up moves of its own, and the other's ways out count against it."
            )
        return lines

    def named(self, group):
        return f"{group.colour}'s {group.begins(self.position.men)}"

    def kept(self, group, reach):
        """What a cut does to the men of the group."""
        if reach == WHOLE:
            return "not taken, without 0-1"
        if group.new and reach in NEW:
            return NEW[reach]
        if not self.is_of_pawns(group):
            return f"within {reach} move{'s' * (reach > 1)} of where it stands" if reach else "where it stands"
        return "where it stands"

    def is_of_pawns(self, group):
        return all(self.position.men[s] in "Pp" for s in group.men)

    def warnings(self):
        """What of the opponent's counts as unknown, and so against the side that is asked about."""
        lines = []
        for colour, side in SIDES.items():
            if self.side == colour:
                continue
            lines += [f"# {text}" for text in self.left_out(colour, side)]
        return ["# Not covered; where the opponent can force one of these, the answer is `none`, not shown:"] + lines if lines else []

    def left_out(self, colour, side):
        men = self.position.men
        pawns = sorted(s for s in self.events.promotes if side_of(men[s]) == side and not self.may_become(s))
        if pawns:
            names = ", ".join(name_of(s) for s in pawns)
            yield f"  what {colour}'s pawns on {names} may become: Q, R, B and N want places, or an exit line"
        elif sum(side_of(men[s]) == side for s in self.events.promotes) > 1:
            yield f"  a second new man of {colour}'s beside the first one"
        if names := ", ".join(name_of(s) for s in self.events.captors() if side_of(men[s]) == side):
            yield f"  captures by {colour}'s pawns on {names}, which leave their files"
        if names := ", ".join(name_of(s) for s in self.victims(side)):
            yield f"  the capture of a pawn on {names}, which has no 0-1"
        for group, reach, _ in self.cuts:
            if reach == WHOLE and group.colour != colour:
                yield f"  the capture of {self.named(group)}, without 0-1"
        last = {tuple(group.men): (group, reach) for group, reach, _ in self.cuts if reach != WHOLE}
        for group, reach in last.values():
            if group.colour == colour and (missed := self.missed(group, reach)):
                yield f"  {self.named(group)}, {missed}"

    def may_become(self, pawn):
        """Are there places on the last rank for all that the pawn may become?"""
        side = side_of(self.position.men[pawn])
        square = 8 * (7 if side == "w" else 0) + pawn % 8
        groups = [g for g in self.groups if g.new and SIDES[g.colour] == side]
        return any(all((piece, square) in g.states for piece in PIECES) for g in groups)

    def missed(self, group, reach):
        """Where the men of the group may go that a cut leaves out. What their pawns may become is told apart."""
        if group.new and reach in NEW:
            return "beyond the last rank" if reach == 3 else ""
        return f"other than {self.kept(group, reach)}"

    def victims(self, side):
        """The pawns that stand fast and that the side may take."""
        men, events = self.position.men, self.events
        fast = [s for s in events.pawns if side_of(men[s]) != side and events.is_fast(s)]
        return sorted(s for s in fast if events.takers(s))

    def about(self, group):
        men = self.position.men
        kinds = {NAMES[men[s].upper()] for s in group.men} | ({"promoted"} if group.new else set())
        fast = "stands fast" if group.is_fixed and group.least == group.most else f"{group.choices:,} choices"
        own = [s for s in group.men if s in self.events.promotes and group.colour == self.side]
        lines = [f"# {group.colour}'s {group.begins(men)} ({' or '.join(sorted(kinds))}): {fast}"]
        if own:
            lines.append("# may promote: a place as Q: and squares, or an exit line, if that is wanted")
        return lines + [group.line()]


def bytes_text(count):
    for unit, size in (("GB", 10**9), ("MB", 10**6), ("kB", 10**3)):
        if count >= size:
            return f"{count / size:.1f} {unit}"
    return f"{count} bytes"
