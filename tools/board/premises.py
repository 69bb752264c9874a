"""What the exit lines of the tables' texts rest on, as `atlas premises` tells. The program reads the text
of TABLE from an anonymous file in memory, so nothing is written."""

import os
import re

from .course import MOST_BEHIND, Course
from .head import CHAINED, LEANING, PLAIN

LINE = re.compile(r"line (\d+) (.+)$")
BELIEVED = "believed "
# The kinds of what a line rests on, by the words that begin what is said of it.
KINDS = {"asks": "asks", "true": "true", "proved": "proved", "believed": "believed"}


def file_in_memory(content):
    """An anonymous file with this content. It is gone when its last holder has closed it."""
    file = os.memfd_create("rules")
    with open(file, "wb", closefd=False) as writer:
        writer.write(content)
    return file


class Premises(Course):
    """What is told of the text of TABLE over the BACKs."""

    def can(self):
        return hasattr(os, "memfd_create") and len(self.heads) <= 1 + MOST_BEHIND

    def begin(self):
        table, *backs = self.heads
        file = file_in_memory(table.raw)
        try:
            words = ("atlas", "premises", f"/dev/fd/{file}", *(back.path for back in backs))
            return self.calls.start(*words, files=(file,))
        finally:
            os.close(file)

    def clear(self):
        self.lines, self.sides = [], []
        self.place, self.believed = 0, None

    def hear(self, line):
        words = line.split(" ")
        if words[0] == "back":
            self.place = int(words[1])
        elif words[0] == "rules":
            self.place = 0
        elif words[0] == "believed":
            self.believed = int(words[1])
        elif words[0] in ("white", "black"):
            self.sides.append(line)
        elif match := LINE.match(line):
            self.lines.append({"place": self.place, "line": int(match[1]), **basis_of(match[2])})

    def told(self):
        return {
            "lines": self.lines,
            "believed": self.believed,
            "sides": self.sides,
            "of_table": self.speak_of_table(),
        }

    def speak_of_table(self):
        """Whether what is said of the sides is said of TABLE: its exits have the values that it was built
        with, those of its lines alone or those of the tables behind it."""
        table, *backs = self.heads
        return {PLAIN: not backs, CHAINED: len(backs) == 1, LEANING: bool(backs)}[table.kind]


def basis_of(words):
    """What a line rests on: its kind, the words for it, and the exit that needs belief."""
    kind = KINDS.get(words.split(" ")[0], "believed")
    if words.startswith(BELIEVED):
        return {"kind": kind, "words": "believed", "fen": words.removeprefix(BELIEVED)}
    return {"kind": kind, "words": words, "fen": None}
