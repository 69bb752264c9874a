"""Moves by the tables of a proof: each legal move of a position with the bounds after it, the best line of a
side, and which moves are the only ones. All of it is told by the programs; nothing of it decides a verdict."""

import os
from dataclasses import dataclass
from typing import Optional

from board.asking import turn_of
from board.bounds import HOLD, NOTHING, SIDES, WIN, opponent, rank, read_bounds
from board.calls import Calls
from board.listing import Listing
from board.tables import Tables
from board.walks import Walks
from lib.chess import after, read_fen, read_move, write_fen
from proving.asking import table_of

SAFE = (WIN, HOLD)  # the better one first


def worth(bound):
    """How good a bound is, the lower the better."""
    return (SAFE.index(bound.kind) if bound.kind in SAFE else len(SAFE), bound.plies or 0)


@dataclass(frozen=True)
class Option:
    """A legal move of a position, with the bounds after it by the first table that has it."""

    san: str
    move: str
    bounds: dict
    leaves: bool

    def joined(self, other):
        """The same move with the better bound of each side."""
        bounds = {side: min(self.bounds[side], other.bounds[side], key=worth) for side in SIDES}
        return Option(self.san, self.move, bounds, self.leaves and other.leaves)

    def keeps(self, side, kind):
        """Whether the side still wins, or still does not lose, by the tables."""
        return self.bounds[side].kind in ((WIN,) if kind == WIN else SAFE)

    def spoils(self, side, kind):
        """Whether the tables show that the side's win, or its hold, is gone."""
        other = self.bounds[opponent(side)].kind
        return other in SAFE if kind == WIN else other == WIN


class View:
    """A table with those behind it, as the page of `explore` asks them."""

    def __init__(self, calls, paths):
        self.tables = Tables(calls, paths)
        self.listing = Listing(calls, self.tables)
        self.walks = Walks(calls, self.tables, self.listing)

    def moves(self, fen, texts):
        """The legal moves by the first table that has the position; none where no table has it."""
        place, _ = self.tables.first(fen)
        return self.listing.moves(fen, place, turn_of(fen), texts) if place is not None else []

    def bounds(self, fen):
        place, answer = self.tables.first(fen)
        return read_bounds(answer.lines) if place is not None else None


class Game:
    """Tables that have the position, each with those behind it; or with none the laws of chess alone."""

    def __init__(self, programs, folder="", rows=()):
        self.calls = Calls({"freezer": programs.freezer, "atlas": programs.atlas})
        self.views = [
            View(self.calls, [os.path.join(folder, table_of(name)) for name in names]) for names in rows
        ]
        self.seen = {}

    def options(self, fen) -> list[Option]:
        """The legal moves, best first for the side to move; none where no table has the position."""
        if fen not in self.seen:
            self.seen[fen] = self.ask_options(fen)
        return self.seen[fen]

    def texts(self, fen):
        """The legal moves in coordinates, by their notation."""
        sans, moves = (self.calls.ask("freezer", command, fen).text.split() for command in ("sans", "moves"))
        return {} if sans == moves else dict(zip(sans, moves))

    def ask_options(self, fen):
        texts, found = self.texts(fen), {}
        for view in self.views if texts else ():
            for move in view.moves(fen, texts):
                bounds = move.bounds or {side: NOTHING for side in SIDES}
                option = Option(move.san, move.text, bounds, bool(move.exit))
                found[move.san] = option.joined(found[move.san]) if move.san in found else option
        side, places = turn_of(fen), list(texts)
        return sorted(found.values(), key=lambda o: (
            rank(o.bounds[side], o.bounds[opponent(side)]), places.index(o.san)
        ))

    def option(self, fen, move) -> Optional[Option]:
        return next((option for option in self.options(fen) if option.move == move), None)

    def after(self, fen, move):
        """The position after a legal move, in coordinates."""
        return write_fen(after(read_fen(fen), read_move(move)))

    def bounds(self, fen):
        """The best bounds of all tables that have the position, or nothing."""
        found = [bounds for bounds in (view.bounds(fen) for view in self.views) if bounds]
        return {side: min((each[side] for each in found), key=worth) for side in SIDES} if found else None

    def is_only(self, fen, option, kind):
        """Whether every other legal move of the mover throws away his win, or his hold, by the tables."""
        mover, others = turn_of(fen), [o for o in self.options(fen) if o is not option]
        return bool(others) and option.keeps(mover, kind) and all(o.spoils(mover, kind) for o in others)

    def line(self, fen, side):
        """The steps of the best line of the side, and the plies of its first table; none where it is refused."""
        for view in self.views:
            told = view.walks.line(fen, side)
            if told.get("stages"):
                return told["steps"], len(told["stages"][0]["moves"])
        return [], 0

    def played(self, fen, moves):
        """The notation of moves that follow each other, and the last position; fewer where one is not legal."""
        sans = []
        for move in moves:
            san = next((san for san, text in self.texts(fen).items() if text == move), None)
            if san is None:
                break
            sans.append(san)
            fen = self.after(fen, move)
        return sans, fen

    def stop(self):
        self.calls.stop()
        self.calls.pool.shutdown(wait=False)
