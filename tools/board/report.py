"""A report of a table: its mutual zugzwangs, and its open exits."""

from .course import MOST_BEHIND, Course
from .head import LEANING, PLAIN

KEPT = 600  # squeezes, and classes of open exits


def words_of(heads):
    """The words that ask for the report of the first table, or nothing where no command tells it."""
    table, *backs = heads
    if table.kind == PLAIN:
        return ("freezer", "report", table.path)
    if table.kind == LEANING and 0 < len(backs) <= MOST_BEHIND:
        return ("atlas", "report", table.path, *(back.path for back in backs))
    return None


class Report(Course):
    """The report of TABLE."""

    def can(self):
        return words_of(self.heads) is not None

    def begin(self):
        return self.calls.start(*words_of(self.heads))

    def clear(self):
        self.squeezes, self.exits = [], []
        self.found, self.number = 0, 0

    def hear(self, line):
        words = line.split(" ", 3)
        if words[0] == "squeeze":
            self.found, self.number = self.found + 1, int(words[1])
            if len(self.squeezes) < KEPT:
                self.squeezes.append(words[3])
        elif words[0] == "exits" and len(self.exits) < KEPT:
            self.exits.append({"count": int(words[1]), "men": words[2], "fen": words[3] if words[3:] else None})

    def told(self):
        return {
            "found": self.found,
            "number": self.number,
            "squeezes": self.squeezes,
            "exits": self.exits,
        }
