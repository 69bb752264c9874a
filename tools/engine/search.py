"""What follows a `go`: a line for each move, the moves after it as far as they are told in time, and the best
move. All of it is an answer of the programs."""

from __future__ import annotations

import threading
import time
from dataclasses import dataclass
from typing import Callable

from board.asking import Asking, Refused, Seen
from board.bounds import HOLD, WIN, opponent
from board.moves import Move

from .score import score_of

PATIENCE = 0.025  # seconds after a `go` for which the moves behind the best one are waited for


@dataclass
class Wanted:
    """What a `go` asks for: these moves alone, where some are named, and whether it waits for `stop`."""

    moves: frozenset[str] = frozenset()
    waits: bool = False


@dataclass
class Options:
    """What the user has set."""

    lines: int = 1
    show_none: bool = True


class Search:
    """One search. `tell` takes a line of the engine's."""

    def __init__(self, asking: Asking, tell: Callable[[str], None], wanted: Wanted, options: Options):
        self.asking = asking
        self.tell = tell
        self.wanted = wanted
        self.options = options
        self.begun = time.monotonic()
        self.stopped = threading.Event()
        self.lined = threading.Event()
        self.lock = threading.Lock()
        self.told = False

    def run(self, fen: str):
        """Tells of the position and of its moves, and then the best of them, when it is wanted."""
        try:
            seen = self.asking.at(fen)
            moves = [] if seen.place is None else self.chosen(seen)
        except Refused as why:
            self.end(f"info string {why}")
            return
        except (LookupError, ValueError, AttributeError):
            self.end("info string the program's answer was not understood")
            return
        for line in self.first_lines(seen, moves):
            self.tell(line)
        threading.Thread(target=self.tell_ways, args=(seen, moves), daemon=True).start()
        self.lined.wait(max(0.0, self.begun + PATIENCE - time.monotonic()))
        self.end(best=moves[0].text if moves else "(none)")

    def chosen(self, seen: Seen) -> list[Move]:
        """The moves, or those of them that are asked for, best first."""
        return [move for move in self.asking.moves(seen) if not self.wanted.moves or move.text in self.wanted.moves]

    def first_lines(self, seen: Seen, moves: list[Move]):
        """What the tables say of the position, and a line for each move that is shown."""
        if seen.place is None:
            yield f"info string {seen.answer.text.strip() or 'no answer'}: no table has this position"
            return
        if seen.end:
            yield f"info depth 0 score {'mate 0' if seen.end == 'mate' else 'cp 0'}"
            return
        name = self.asking.tables.heads[seen.place].name
        yield f"info string {name}: {', '.join(seen.lines)}"
        for place, move in self.shown(seen, moves):
            if not self.score(seen, move):
                yield f"info string {move.san}: nothing known, {move.said}"
            yield self.line(seen, place, move, [move.text])

    def shown(self, seen: Seen, moves: list[Move]):
        """The moves that are shown, with their places from 1: as many as are wanted, and at least one."""
        some = [move for move in moves if self.options.show_none or self.score(seen, move)]
        return list(enumerate((some or moves)[: self.options.lines], 1))

    def score(self, seen: Seen, move: Move) -> str:
        return score_of(move, seen.side, self.asking.tables.counting(seen.place))

    def line(self, seen: Seen, place: int, move: Move, way: list[str]) -> str:
        """A line on a move with the moves that follow it. Chess programs show the deepest first, so all that
        have such moves are told as equally deep."""
        took = int(1000 * (time.monotonic() - self.begun))
        words = ["info", f"depth {min(len(way), 2)} multipv {place}", self.score(seen, move)]
        words += [f"nodes {len(seen.texts)} time {took}", f"pv {' '.join(way)}"]
        return " ".join(filter(None, words))

    def tell_ways(self, seen: Seen, moves: list[Move]):
        """A line more for each move that is shown, with the moves behind it, until the search has ended."""
        for place, move in self.shown(seen, moves):
            if self.told:
                return
            way = [move.text, *self.way(seen, move)]
            with self.lock:
                if not self.told and len(way) > 1:
                    self.tell(self.line(seen, place, move, way))
        self.lined.set()

    def way(self, seen: Seen, move: Move) -> list[str]:
        """The moves that follow a move: the best line of the side that wins behind it, or else of one that
        holds, the mover before the other."""
        for kind in (WIN, HOLD):
            for side in (seen.side, opponent(seen.side)):
                if move.bounds and move.bounds[side].kind == kind:
                    return self.asking.line(self.asking.after(seen.fen, move.san), side)
        return []

    def end(self, last: str = "", best: str = "(none)"):
        """Tells the best move, after `stop` where that is waited for. Nothing of this search follows."""
        if last:
            self.tell(last)
        if self.wanted.waits:
            self.stopped.wait()
        with self.lock:
            self.told = True
            self.tell(f"bestmove {best}")

    def stop(self):
        self.stopped.set()
