"""What the programs say of a table and a position: `query` and `verdict`. Each answer is read to its last word, and
one that has another form than the pages give it shows nothing."""

import os
import re
import subprocess
from dataclasses import dataclass

from board.head import LEANING, PLAIN, NoTable, read_head

SIDES = ("white", "black")
FAULTS = (2, 3, 4, 5, 6, 7, 12)  # the statuses by which a program refuses what it was given
BOUND = re.compile(r"(white|black) (?:(holds|none)|wins within (\d+))")
WINS = re.compile(r"(white|black) wins(?:, mate within (\d+))?")


class NothingShown(Exception):
    """The files of the folder show nothing, and why, with what to do."""


class Refused(NothingShown):
    """A program refused what it was asked, by this text."""

    def __init__(self, words, text):
        super().__init__(f"{' '.join(words[:3])}: {text}")
        self.text = text


class ProgramEnded(Exception):
    """A program that could not answer: its status, and what it said."""

    def __init__(self, program, status, text):
        said = f": {text}" if text else ""
        super().__init__(f"{os.path.basename(program)} ended with status {status}{said}")
        self.status = status if status > 0 else 128 - status


@dataclass(frozen=True)
class Bound:
    """What a table says of one side: `wins` with the plies of the win, `holds` or `none`."""

    kind: str
    plies: int = 0

    @property
    def is_safe(self):
        return self.kind in ("wins", "holds")


@dataclass(frozen=True)
class Told:
    """What `verdict` says of a position by the last table of a row, as it was printed."""

    name: str
    over: tuple[str, ...]
    text: str


class Asking:
    """Asks the programs about the files of a folder, a call for each question."""

    def __init__(self, programs, folder):
        self.programs, self.folder = programs, folder

    def run(self, program, words):
        """The status and the text of a call."""
        done = subprocess.run(
            [program, *words], cwd=self.folder, stdin=subprocess.DEVNULL, stdout=subprocess.PIPE,
            stderr=subprocess.DEVNULL, check=False,
        )
        return done.returncode, done.stdout.decode("ascii", "replace")

    def call(self, name, *words):
        """The text of a call that ends with status 0."""
        program = getattr(self.programs, name)
        status, text = self.run(program, words)
        if status in FAULTS:
            raise Refused((name, *words), text.strip())
        if status != 0:
            raise ProgramEnded(program, status, text.strip())
        return text

    def query(self, name, over, fen):
        return self.call("atlas" if over else "freezer", "query", table_of(name), fen)

    def has(self, cell, fen):
        """Whether the table of a cell has the position."""
        try:
            self.query(cell.name, cell.over, fen)
        except Refused as refused:
            if refused.text == "outside":
                return False
            raise
        return True

    def told(self, name, over, fen):
        """The verdict by the last table of a row, after each text was held against its table."""
        for each in (*over, name):
            self.compare(each, PLAIN if each == name and not over else None)
        return Told(name, over, self.call("atlas", "verdict", table_of(name), fen, *map(table_of, over)))

    def compare(self, name, kind):
        """The text of the folder has to be the one in the table, byte for byte."""
        try:
            head = read_head(os.path.join(self.folder, table_of(name)))
            with open(os.path.join(self.folder, text_of(name)), "rb") as file:
                text = file.read()
        except (NoTable, OSError) as fault:
            raise NothingShown(f"{name} is not whole: {fault}; build it again") from fault
        if text != head.raw:
            raise NothingShown(f"{text_of(name)} is not the text of {table_of(name)}; build that again")
        if head.kind not in ((kind,) if kind else (PLAIN, LEANING)):
            raise NothingShown(f"{table_of(name)} is not of the kind that the row names; build it again")


def table_of(name):
    return f"{name}.t"


def text_of(name):
    return f"{name}.txt"


def read_query(text):
    """The bounds of both sides."""
    lines = text.split("\n")
    found = [BOUND.fullmatch(line) for line in lines[:2]]
    if len(lines) != 3 or lines[2] or not all(found) or tuple(match[1] for match in found) != SIDES:
        raise NothingShown(f"query does not tell two bounds: {text.strip()}")
    return {match[1]: Bound(match[2]) if match[2] else Bound("wins", int(match[3])) for match in found}


def read_verdict(text, fen):
    """What is said of the position, and the lines that are believed for it."""
    first, said, *believed, count, end = text.split("\n") if text.count("\n") > 2 else ("",) * 4
    if first != fen or count != f"believed {len(believed)}" or end:
        raise NothingShown(f"verdict says what this page does not know: {text.strip()}")
    return said, believed
