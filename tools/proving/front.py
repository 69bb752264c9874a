"""The front door: reads the words, searches, and says what is proved."""

import os
import shlex
import signal
import sys
import time

from proving import folder as pages
from proving.asking import ProgramEnded
from proving.conclude import Case, conclude
from proving.edited import shown_as_they_stand
from proving.options import WrongWords, read_words
from proving.position import accepted, game_over
from proving.proof import search
from proving.resume import read_state
from proving.state import EditedText
from proving.tables import ProgramFailed

WRONG_WORDS, STORE_FAULT, STOPPED = 2, 8, 130


class Teller:
    """Progress on standard error, with the seconds that are gone."""

    def __init__(self):
        self.began = time.monotonic()

    def __call__(self, text):
        print(f"prove: {time.monotonic() - self.began:7.1f} s  {text}", file=sys.stderr, flush=True)


def say(text):
    print(f"prove: {text}", file=sys.stderr, flush=True)


def main(words):
    """The status of a call with these words."""
    for stopping in (signal.SIGTERM, signal.SIGHUP):
        signal.signal(stopping, signal.default_int_handler)
    try:
        return answer(words)
    except (WrongWords, EditedText) as wrong:
        say(wrong)
        return WRONG_WORDS
    except (ProgramEnded, ProgramFailed) as ended:
        say(ended)
        return getattr(ended, "status", STORE_FAULT)
    except OSError as fault:
        say(f"{fault.filename or 'a file'}: {fault.strerror}")
        return STORE_FAULT
    except KeyboardInterrupt:
        say("stopped")
        return STOPPED


def answer(words):
    asked = read_words(words)
    fen, side, claim = what(asked)
    fen, told = accepted(asked.programs, fen)
    if ended := game_over(fen, side, claim, told):
        print(f"{fen}: {ended[0]}")
        return ended[1]
    place = folder_for(asked)
    case = Case(fen, side, claim, asked.programs, place, asked.budget.keep)
    if not asked.resume:
        pages.write_state(case)
    try:
        return prove(case, asked)
    except KeyboardInterrupt:
        say(f"the folder {place} is kept; to go on: ./prove --resume {shlex.quote(place)}")
        raise


def prove(case, asked):
    tell = Teller()
    tell(f"the folder is {case.folder}")
    found = shown_as_they_stand(case, read_state(case.folder)["cells"], tell) if asked.resume else None
    found = found or search(
        case.fen, case.side, case.claim, case.programs, case.folder, asked.budget, tell, bool(asked.resume)
    )
    tell("asking the verdict by all tables")
    outcome, line = conclude(case, found)
    tell(f"done; the proof is {case.folder}/PROOF.md" if pages.has_page(case.folder) else "done")
    print(f"{case.fen}: {line}")
    return outcome.value


def what(asked):
    """The FEN, the side and the claim: of the words, or of the folder that is resumed."""
    if not asked.resume:
        return asked.fen, asked.side, asked.claim
    state = read_state(asked.resume)
    if asked.fen and accepted(asked.programs, asked.fen)[0] != state["fen"]:
        raise WrongWords(f"{asked.resume} is about another position, {state['fen']}: leave the FEN away")
    if asked.side or asked.claim:
        return state["fen"], asked.side, asked.claim
    return state["fen"], state["for"], state["claim"]


def folder_for(asked):
    """The folder of the proof, which is there after this."""
    if asked.resume:
        return asked.resume
    place = asked.out or next_free()
    if os.path.exists(place) and (not os.path.isdir(place) or os.listdir(place)):
        raise WrongWords(
            f"{place} is not an empty folder: name a new one by --out, or go on with an earlier call by --resume {place}"
        )
    try:
        os.makedirs(place, exist_ok=True)
    except OSError as fault:
        raise WrongWords(f"{place} cannot be made ({fault.strerror}): name another folder by --out") from fault
    return place


def next_free():
    """`proof`, or the first of `proof-2` .. that is not there."""
    number, name = 1, "proof"
    while os.path.exists(name):
        number += 1
        name = f"proof-{number}"
    return name
