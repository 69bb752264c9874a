"""The legal moves of a position with what the tables say after each: by one call of `each`, with `ask` for those
that leave the set; or else by calls for each move."""

from lib.chess import after, read_fen, read_move, write_fen

from .asker import Askers
from .bounds import read_bounds
from .head import CHAINED, LEANING
from .moves import Move, goes_behind, goes_out, is_open, ranked, read_answer, read_each


class Listing:
    """Lists moves by the tables. `texts` has the coordinates of each legal move by its notation."""

    def __init__(self, calls, tables):
        self.calls = calls
        self.tables = tables
        self.askers = Askers(calls, tables)

    def moves(self, fen, place, side, texts):
        """The moves, best first for the side to move, by the table at this place, which has the position."""
        answer = self.each(fen, place)
        if answer is None:
            moves = self.calls.each_of(lambda san: self.one(fen, place, san, texts[san]), texts)
            return ranked(moves, side, texts)
        moves = read_each(answer.lines, texts)
        gone = self.go_out(fen, place, [move for move in moves if move.exit])
        return ranked(moves, side, texts) if gone else moves

    def each(self, fen, place):
        """The answer of `each`; none for a chained table, and where `atlas` cannot be asked."""
        if place is None or self.tables.heads[place].kind == CHAINED:
            return None
        answer = self.calls.ask("atlas", "each", self.tables.heads[place].path, fen)
        return answer if answer.status == 0 else None

    def go_out(self, fen, place, moves):
        """Whether more was said of some of these moves, which leave the set."""
        backs = self.tables.leant_on(place)
        answers = self.asked(fen, place, moves) if backs and self.tables.heads[place].kind == LEANING else None
        if answers is None:
            return any(self.calls.each_of(lambda move: self.go_behind(fen, place, move), self.open_moves(moves)))
        for move, (back, lines) in zip(moves, answers):
            if back is None:
                goes_out(move, *lines)
            else:
                goes_behind(move, backs[back - 1].name, lines, self.tables.counting_behind(place))
        return bool(moves)

    def asked(self, fen, place, moves):
        """What `ask` says of the positions after these moves; nothing where it cannot be asked yet."""
        position = read_fen(fen)
        ends = [write_fen(after(position, read_move(move.text))) for move in moves]
        answers = self.askers.ask(place, ends)
        return None if answers is None else [read_answer(answer) for answer in answers]

    def open_moves(self, moves):
        """The moves that a table behind may say more about."""
        return [move for move in moves if is_open(move)] if len(self.tables.heads) > 1 else []

    def go_behind(self, fen, place, move):
        """Whether a table has the position after a move; what it says there is then said of the move."""
        found, answer = self.tables.first(self.after(fen, move.san))
        if found is None:
            return False
        goes_behind(move, self.tables.heads[found].name, answer.lines, self.tables.counting_behind(place))
        return True

    def one(self, fen, place, san, text):
        """One move, with what the tables say after it by calls of its own."""
        found, answer = self.tables.first(self.after(fen, san))
        move = Move(san, text, answer.text.strip())
        if found is None:
            move.exit = "leaves the set"
        elif found != place:
            counting = frozenset() if place is None else self.tables.counting_behind(place)
            goes_behind(move, self.tables.heads[found].name, answer.lines, counting)
        else:
            move.said, move.bounds = ", ".join(answer.lines), read_bounds(answer.lines)
        return move

    def after(self, fen, san):
        """The position after a legal move."""
        return self.calls.ask("freezer", "move", fen, san).lines[1]
