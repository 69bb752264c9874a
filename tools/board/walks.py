"""Ways from a position: the best line of a side, and why a side has no win, or not even a hold. What the
program says is read here, and each move of it gets its notation and the position after it."""

import re

from .bounds import HOLD, NONE, read_bound

BOUND = re.compile(r"(?:white|black) (?:wins within \d+|holds|none)$")
MOVE = re.compile(r"[a-h][1-8][a-h][1-8][qrbn]?$")
BEHIND = re.compile(r"back (\d+)$")
LINE = re.compile(r"line (\d+)$")
WANTED = "wanted "
LONGEST = 60  # seconds, since all tables that are named may have to be read
NOT_TOLD = "not told of a chained table, nor of one of atlas build without the tables behind it"


class Walks:
    """The ways of a side, by the first table that has the position."""

    def __init__(self, calls, tables, listing):
        self.calls = calls
        self.tables = tables
        self.listing = listing

    def asked(self, command, fen, side):
        """The place of the table that has the position, and the lines of its answer; no place where it is
        refused, with the refusal."""
        place, answer = self.tables.first(fen)
        if place is None:
            return None, answer.text.strip()
        words = self.tables.way(command, place, fen, side)
        if words is None:
            return None, NOT_TOLD
        answer = self.calls.ask(*words, seconds=LONGEST)
        if not answer.lines or not BOUND.match(answer.lines[0]):
            return None, answer.text.strip()
        return place, answer.lines

    def line(self, fen, side):
        """The best line: the positions that it comes to, and the tables by which it is played, each with
        its bound and its end."""
        place, lines = self.asked("line", fen, side)
        if place is None:
            return {"fen": fen, "refused": lines}
        steps, stages, at = [], [], fen
        for stage in stages_of(lines):
            stages.append({**stage, "table": self.name(stage["back"] or place), "plies": len(stage["moves"])})
            for move in stage["moves"]:
                steps.append(self.step(at, move))
                at = steps[-1]["fen"]
        return {"fen": fen, "steps": steps, "stages": stages}

    def why(self, fen, side):
        """Why the side does not win: the way on which it is spoiled, or the replies that keep it from a
        win, and then the way on which the opponent is; nothing behind the bound of a win."""
        place, lines = self.asked("why", fen, side)
        if place is None:
            return {"fen": fen, "refused": lines}
        told = {"fen": fen, "side": side, "bound": lines[0], "kind": read_bound(lines[0]).kind}
        if told["kind"] == NONE:
            told.update(self.failing(fen, place, lines[1:]))
        if told["kind"] == HOLD:
            rows, rest = rows_of(lines[1:])
            told["rows"] = self.calls.each_of(lambda row: self.steps(fen, row), rows)
            if rest and BOUND.match(rest[0]):
                told["other"] = {"bound": rest[0], **self.failing(fen, place, rest[1:])}
                rest = []
            told["end"] = self.end(place, rest)
        return told

    def failing(self, fen, place, lines):
        """The way on which a side is spoiled, and its end."""
        moves, rest = moves_of(lines)
        return {"steps": self.steps(fen, moves), "end": self.end(place, rest)}

    def end(self, place, rest):
        """How the way to a spoiled bound ends; where it leaves the set, with the position outside and who
        decides it: an exit line, which is told in its words, a table behind, or nobody, and then with what the
        text lacks."""
        words, *more = rest or [""]
        if not words.startswith("exit ") or len(more) < 2:
            return {"words": words}
        fen, by = more[:2]
        end = {"words": words, "fen": fen, "by": by}
        if wanted := [line.removeprefix(WANTED) for line in more[2:] if line.startswith(WANTED)]:
            end["wanted"] = wanted
        if match := LINE.match(by):
            end.update(place=place, line=int(match[1]), text=line_of(self.tables.heads[place], int(match[1])))
        if match := BEHIND.match(by):
            end["table"] = self.name(int(match[1]))
        return end

    def steps(self, fen, moves):
        """The moves one after the other, each with the position after it."""
        steps = []
        for move in moves:
            steps.append(self.step(steps[-1]["fen"] if steps else fen, move))
        return steps

    def step(self, fen, move):
        """A move of coordinates in algebraic notation, and the position after it."""
        sans, moves = self.calls.ask("freezer", "sans", fen), self.calls.ask("freezer", "moves", fen)
        san = dict(zip(moves.text.split(), sans.text.split()))[move]
        return {"san": san, "move": move, "fen": self.listing.after(fen, san)}

    def name(self, place):
        return self.tables.heads[place].name


def moves_of(lines):
    """The moves with which these lines begin, and the lines behind them."""
    count = next((at for at, line in enumerate(lines) if not MOVE.match(line)), len(lines))
    return lines[:count], lines[count:]


def rows_of(lines):
    """The rows of one or two moves with which these lines begin, and the lines behind them."""
    rows = [line.split(" ") for line in lines]
    count = next((at for at, row in enumerate(rows) if not all(map(MOVE.match, row))), len(rows))
    return rows[:count], lines[count:]


def stages_of(lines):
    """The stages of a line: at TABLE and then behind, each with its bound, its moves and its end."""
    stages, back = [], 0
    while lines:
        if match := BEHIND.match(lines[0]):
            back, lines = int(match[1]), lines[1:]
            continue
        bound, (moves, rest) = lines[0], moves_of(lines[1:])
        stages.append({"back": back, "bound": bound, "moves": moves, "end": rest[0] if rest else ""})
        lines = rest[1:]
    return stages


def line_of(head, number):
    """The line of this number in the text of a table, from 1."""
    lines = head.text.split("\n")
    return lines[number - 1].strip() if 0 < number <= len(lines) else ""
