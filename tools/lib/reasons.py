"""Why a side has no win, or not even a hold, by any codes, right or wrong: what `why` prints, read from
docs/users/formats.md."""

from lib.chess import is_en_passant, move_text, name_of, side_of, write_fen
from lib.game import HOLD, SIDES, bound_text, class_of, is_failure, is_win, opponent
from lib.premises import exit_numbers
from lib.walks import behind_at, end_at, wrong_at

PROMOTED = "QRBN"


class Reasons:
    """What `why` prints by a table with its game, and its codes."""

    def __init__(self, table):
        self.table, self.game, self.codes = table, table.game, table.codes

    def text(self, side, number):
        """Status and text of `why` for a side at a number."""
        said = bound_text(side, self.codes[side][number])
        if is_win(self.codes[side][number]):
            return 0, said
        if (wrong := wrong_at(self.game, side, self.codes[side], number)) is not None:
            return wrong[0], said + wrong[1]
        if self.codes[side][number] != HOLD:
            return self.spoiled(side, number, said)
        status, said = self.denied(side, number, said)
        other = opponent(side)
        if status != 0 or not is_failure(self.codes[other][number]):
            return status, said
        return self.spoiled(other, number, said + bound_text(other, self.codes[other][number]))

    def spoiled(self, side, number, said):
        """The way on which the side fails: behind each move that is played it fails one ply sooner."""
        codes = self.codes[side]
        while True:
            if (wrong := wrong_at(self.game, side, codes, number)) is not None:
                return wrong[0], said + wrong[1]
            if (last := end_at(self.game, number)) is not None:
                return 0, said + last
            chosen = self.game.chosen(side, number)
            if not chosen:
                return 0, said + "renounced\n"
            arm = next(a for a in chosen if self.game.arm_code(side, codes, a) == codes[number] - 2)
            said += move_text(arm.move) + "\n"
            if arm.number is None:
                return 0, said + self.exit_lines(self.game.positions[number], arm)
            number = arm.number

    def exit_lines(self, before, arm):
        """The end outside the set: the value, the position, who decides it, and what the text lacks."""
        by = self.decider(arm.end)
        lines = [f"exit {arm.value}", write_fen(arm.end), by, *(repairs(before, arm) if by == "no line" else ())]
        return "".join(line + "\n" for line in lines)

    def decider(self, position):
        """Which table or which exit line decides the value of a position outside."""
        if (place := behind_at(self.game, position)) is not None:
            return f"back {place + 1}"
        place = self.game.decider(position)
        return "no line" if place is None else f"line {exit_numbers(self.table.text)[place]}"

    def denied(self, side, number, said):
        """How a win is denied to a side that holds."""
        game, codes = self.game, self.codes[side]
        own = game.mover(number) == side
        for arm in game.chosen(side, number) if game.arms[number] else ():
            if own:
                if arm.number is not None and (wrong := wrong_at(game, side, codes, arm.number)) is not None:
                    return wrong[0], said + wrong[1]
                said += move_text(arm.move) + self.reply_text(side, arm.number) + "\n"
            elif not is_win(game.arm_code(side, codes, arm)):
                said += move_text(arm.move) + "\n"
        return 0, said

    def reply_text(self, side, number):
        """The first reply after which the side has no win, if the game goes on in the set."""
        arms = self.game.arms[number] if number is not None else ()
        reply = next((a for a in arms if not is_win(self.game.arm_code(side, self.codes[side], a))), None)
        return " " + move_text(reply.move) if reply else ""


def repairs(before, arm):
    """What a text lacks that says nothing of the position behind this move: the victim may be gone, the new
    man has a place, a table of what is left; or the man may go there."""
    origin, destination, promotion = arm.move
    mover, other = SIDES if before.turn == "w" else reversed(SIDES)
    victim = captured_square(before, arm.move)
    lines = []
    if victim is not None:
        lines.append(f"wanted {other} 0-1 {before.men[victim].upper()}:{name_of(victim)}")
    if promotion:
        lines.append(f"wanted {mover} " + " ".join(f"{kind}:{name_of(destination)}" for kind in PROMOTED))
    if not lines:
        return [f"wanted {mover} {before.men[origin].upper()}:{name_of(destination)}"]
    return [*lines, f"wanted a table of {class_of(arm.end)}"]


def captured_square(before, move):
    """The square of the man that a move captures, or None."""
    if is_en_passant(before, move):
        return move[1] - 8 if side_of(before.men[move[0]]) == "w" else move[1] + 8
    return move[1] if move[1] in before.men else None
