"""What the page asks about: a position with its moves, a way from it, a report, premises. Each fact in it is
an answer of `freezer` or of `atlas`."""

from .asking import Asking, Refused
from .bounds import SIDES, better, read_bound, verdict_of
from .head import NoTable
from .premises import Premises
from .report import Report
from .start import first_positions

LONGEST_WORD = 200


class Answers:
    """The answers about one table, and those behind it; perhaps with another table of the same positions shown
    beside it, over tables of its own. `first` is a position to begin with, where one is
    known."""

    def __init__(self, calls, tables, beside=None, first=None):
        self.calls = calls
        self.tables = tables
        self.first = first
        self.asking = Asking(calls, tables)
        self.beside = Asking(calls, beside) if beside else None
        self.walks = self.asking.walks
        self.courses = {}
        self.begin_courses()

    def begin_courses(self):
        """A report and premises that have not begun, in place of others."""
        for course in self.courses.values():
            course.stop()
        self.courses = {
            "report": Report(self.calls, self.tables),
            "premises": Premises(self.calls, self.tables),
        }

    def refresh(self):
        """Begins anew where a file was written anew; what is wrong with it then, or nothing."""
        try:
            if self.beside:
                self.beside.tables.refresh()
            if self.tables.refresh():
                self.begin_courses()
        except NoTable as why:
            return str(why)
        return None

    def course(self, name, order):
        """What is told of a course, after it was begun or stopped where this is the order."""
        course = self.courses[name]
        if order:
            getattr(course, order)()
        return course.shown()

    def shown(self):
        """What the page is told of the tables."""
        return {
            "tables": self.tables.shown(),
            "beside": self.beside.tables.shown() if self.beside else [],
            "age": self.tables.age,
            "start": self.start(),
        }

    def start(self):
        """A position of the set to begin with, or nothing where none was found."""
        known = [self.first] if self.first else []
        for fen in (*known, *first_positions(self.tables.heads[0].text)):
            if self.calls.ask(*self.tables.question(0, fen)).status == 0:
                return fen
        return None

    def position(self, fen, san=""):
        """What is told of a position, or of that after a move."""
        try:
            return self.at(self.asking.after(fen, san) if san else fen)
        except Refused as why:
            return {"fen": fen, "refused": str(why)}

    def after(self, fen, san):
        """A move that is played, and the position after it, with no question about its worth."""
        try:
            text, after = self.asking.played(fen, san)
        except Refused as why:
            return {"fen": fen, "refused": str(why)}
        return {"fen": after, "move": text}

    def at(self, fen):
        """The bounds at a position, and its legal moves with the bounds after each."""
        seen = self.asking.at(fen)
        told = {
            "fen": fen,
            "turn": seen.side,
            "end": seen.end,
            "age": self.tables.age,
            "table": seen.place,
            "said": seen.answer.text.strip(),
            "verdict": verdict_of(seen.bounds),
            "bounds": [bound_shown(line) for line in seen.lines],
            "moves": [move.shown(seen.side, seen.bounds) for move in self.asking.moves(seen)],
        }
        return self.with_beside(told, seen) if self.beside else told

    def with_beside(self, told, seen):
        """The same with what the table beside says too: of both each side has the better bound."""
        other = self.beside.at(seen.fen)
        name = self.beside.tables.heads[other.place or 0].name
        words = {move.san: move.said for move in self.beside.moves(other)}
        for move in told["moves"]:
            move["beside"] = words[move["san"]]
        if seen.bounds and other.bounds:
            told["verdict"] = verdict_of({side: better(seen.bounds[side], other.bounds[side]) for side in SIDES})
        elif other.bounds:
            told["verdict"] = verdict_of(other.bounds)
        lines = [bound_shown(line) for line in other.lines]
        return {**told, "beside": {"table": name, "said": other.answer.text.strip(), "bounds": lines}}


def bound_shown(line):
    """A bound in its words, with its kind and the plies of a win."""
    bound = read_bound(line)
    return {"words": line, "kind": bound.kind, "plies": bound.plies}


def is_word(text):
    """Whether a text may be a word of the program's."""
    return len(text) <= LONGEST_WORD and "\0" not in text
