"""The words of `./prove`: what is asked, or a sentence that says which word is wrong and what to do."""

import argparse
import os
from dataclasses import dataclass
from typing import Optional

from proving.proof import Budget, Programs

TOP = os.path.dirname(os.path.dirname(os.path.dirname(os.path.abspath(__file__))))
MOST_TABLES = 17
LARGEST_SET = 134_217_728
FIELDS = "the men, the side to move, castling, the en passant target, and two clocks that may be left out"
CAUSES = {
    "turn": "the second field of the FEN is the side to move, w or b",
    "castling": "write - in the third field of the FEN: Freezer knows no castling, so this asks what holds without it",
    "ep square": "the fourth field of the FEN is - or the square that a pawn has just passed, "
    "on rank 6 with White to move and on rank 3 with Black",
    "clock": "the last two fields of the FEN are numbers, as in `0 1`",
    "invalid kings": "each side has one king: put the other one on the board",
    "invalid pawn rank": "a pawn stands on the first or the last rank, where none can be",
    "invalid too many": "a side has more than sixteen men",
    "invalid ep place": "no pawn can have passed that en passant target: write - in the fourth field",
    "invalid opponent in check": "the side to move could take the king: is the other side to move?",
}


class WrongWords(Exception):
    """The words ask nothing; the text says what to do."""


@dataclass(frozen=True)
class Asked:
    """What a call asks."""

    fen: str
    side: Optional[str]
    claim: Optional[str]
    budget: Budget
    out: Optional[str]
    resume: Optional[str]
    programs: Programs


class Parser(argparse.ArgumentParser):
    """Refuses a wrong word by one sentence."""

    def error(self, message):
        raise WrongWords(f"{message}; ./prove --help lists the options")


def parser():
    made = Parser(prog="./prove", description="Proves what can be proved of a chess position.", allow_abbrev=False)
    made.add_argument("fen", nargs="*", metavar="FEN", help="the position")
    made.add_argument("--for", dest="side", metavar="white|black", help="whose win or hold is claimed")
    made.add_argument("--claim", metavar="win|hold|draw", help="what is claimed; if not given, what can be proved")
    made.add_argument("--limit", metavar="NUMBERS", default=Budget.numbers, help="the most numbers of one set")
    made.add_argument("--tables", metavar="N", default=Budget.tables, help=f"the most tables, at most {MOST_TABLES}")
    made.add_argument("--seconds", metavar="N", default=Budget.seconds, help="the most processor time of the search")
    made.add_argument("--out", metavar="FOLDER", help="the folder of the proof, new or empty; a new one if not given")
    made.add_argument("--resume", metavar="FOLDER", help="goes on in the folder of an earlier call")
    made.add_argument("--keep", action="store_true", help="keeps the texts and tables that the proof does without")
    made.add_argument("--program", metavar="PATH", help="the built freezer; this repository's if not given")
    made.add_argument("--atlas", metavar="PATH", help="the built atlas; this repository's if not given")
    return made


def read_words(words) -> Asked:
    """What the words ask. Whether the FEN is one of a position, the program says."""
    given = parser().parse_args(words)
    if given.resume and given.out:
        raise WrongWords("--resume goes on in its own folder: leave --out away")
    if not given.fen and not given.resume:
        raise WrongWords('name a position: ./prove "8/8/8/3Kp3/4Pk2/8/8/8 w - - 0 1"')
    one_of("--for", given.side, ("white", "black"))
    one_of("--claim", given.claim, ("win", "hold", "draw"))
    if given.claim in ("win", "hold") and not given.side:
        raise WrongWords(f"whose {given.claim} is claimed? add --for white or --for black")
    budget = Budget(
        whole("--limit", given.limit, LARGEST_SET), whole("--tables", given.tables, MOST_TABLES),
        float(whole("--seconds", given.seconds, 10**9)), given.keep,
    )
    programs = Programs(program("freezer", given.program), program("atlas", given.atlas))
    fen = " ".join(word for part in given.fen for word in part.split())
    return Asked(fen, given.side, given.claim, budget, given.out, given.resume, programs)


def one_of(option, word, words):
    if word is not None and word not in words:
        raise WrongWords(f"{option} is {' or '.join(words)}, and not {word}")


def whole(option, word, most):
    """A whole number from 1 to the most."""
    number = int(word) if isinstance(word, (int, float)) or word.isascii() and word.isdigit() else 0
    if not 1 <= number <= most:
        raise WrongWords(f"{option} is a whole number from 1 to {most:,}, and not {word}")
    return number


def program(name, given):
    """The path of a built program: the one that is given, or this repository's."""
    path = os.path.abspath(given) if given else os.path.join(TOP, "crates", name, "out", name)
    option = "--program" if name == "freezer" else "--atlas"
    if given and not (os.path.isfile(path) and os.access(path, os.X_OK)):
        raise WrongWords(f"no program is at {given}: {option} names the built {name}")
    if not os.access(path, os.X_OK):
        raise WrongWords(
            f"{name} is not built yet. Call ./freezer and ./atlas once each: the first call proves and builds the "
            f"program, in up to half an hour. Or name a built one by {option} PATH"
        )
    return path


def sentence_of(refusal, fen):
    """What to do where the program refuses the FEN by these words."""
    cause = refusal.removeprefix("fen: ")
    if cause == "fields":
        return f"a FEN has four fields or six: {FIELDS}. This one has {len(fen.split())}; `- - 0 1` often ends it"
    if cause == "placement 0":
        return "the FEN has more than eight ranks"
    if cause.startswith("placement "):
        return f"rank {cause.split()[1]} of the FEN is missing, or its digits and letters do not make eight squares"
    return CAUSES.get(cause, f"the position is refused: {refusal}")
