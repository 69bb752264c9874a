"""What `each` prints of the moves of a position by a table of `atlas`, read from docs/users/formats.md."""

from lib.game import HOLD, SIDES, bound_text, is_win, opponent
from lib.san import san_of
from lib.walks import behind_at, end_at

HELD, LOST = 2 ** 32, 2 ** 34


def each_text(table, number):
    """The text of `each` at a number of a table."""
    game = table.game
    if (last := end_at(game, number)) is not None:
        return last
    position, side = game.positions[number], game.mover(number)
    ranked = sorted(game.arms[number], key=lambda arm: rank_of(table, side, arm))
    return "".join(f"{san_of(position, arm.move)} {said_of(table, arm)}\n" for arm in ranked)


def said_of(table, arm):
    """The bounds after a move, those of the table behind that tells of it, or the value of the exit."""
    mark, game = "" if arm.free else ", renounced", table.game
    if arm.number is not None:
        return bounds_text([table.codes[side][arm.number] for side in SIDES]) + mark
    if (place := behind_at(game, arm.end)) is not None:
        return f"back {place + 1} {bounds_text(game.back.backs[place].codes_at(arm.end))}{mark}"
    return f"exit {arm.value}{mark}"


def bounds_text(codes):
    """Both bounds on one line."""
    return ", ".join(bound_text(side, code).strip() for side, code in zip(SIDES, codes))


def rank_of(table, side, arm):
    """How good a move is for its mover, the lower the better."""
    own, other = (table.game.arm_code(one, table.codes[one], arm) for one in (side, opponent(side)))
    if is_win(own):
        return own
    if is_win(other):
        return LOST - other
    if own == HOLD:
        return HELD + (other == HOLD)
    return HELD + 2 + (other == HOLD)
