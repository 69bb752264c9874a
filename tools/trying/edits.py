"""Texts of a folder that the user edits: they are built as they stand before the search goes on."""

import os
from dataclasses import replace

from trying.endings import BEFORE_THE_PAWN, CORNER, Handing, prove, write

BARE = replace(CORNER, text="".join(line for line in CORNER.text.splitlines(True) if not line.startswith("exit")))
HOLDS = "White does not lose; whether he wins is open"


def never(*_, **__):
    raise AssertionError("the search was called")


def text_of(*path):
    with open(os.path.join(*path), encoding="utf-8") as file:
        return file.read()


def see_edits(programs, checks):
    words = ("--for", "white", "--claim", "hold", "--out", "edited")
    status, out, _ = prove(programs, Handing(BARE), BEFORE_THE_PAWN, *words)
    checks.same("without the line", (status, out), (3, f"{BEFORE_THE_PAWN}: Not shown"))
    write("edited", "c01.txt", "# mine\n" + CORNER.text + "exit\n")
    status, out, err = prove(programs, never, "--resume", "edited")
    checks.same("a text that is refused", (status, out), (2, ""))
    checks.see(f"what is said of it: {err}", "c01.txt is refused (rules 8: word 2)" in err)
    write("edited", "c01.txt", "# mine\n" + BARE.text)
    called = []

    def note(*words_of_search, **named):
        called.append(text_of("edited", "c01.edited"))
        return Handing(BARE)(*words_of_search, **named)

    status, out, _ = prove(programs, note, "--resume", "edited")
    checks.same("a text that shows nothing", (status, out, called), (3, f"{BEFORE_THE_PAWN}: Not shown", ["# mine\n" + BARE.text]))
    write("edited", "c01.txt", "# mine\n" + CORNER.text)
    status, out, _ = prove(programs, never, "--resume", "edited")
    checks.same("a text that shows it", (status, out), (0, f"{BEFORE_THE_PAWN}: {HOLDS}"))
    checks.same("the text", text_of("edited", "c01.txt"), "# mine\n" + CORNER.text)
    status, out, _ = prove(programs, Handing(CORNER), "--resume", "edited")
    checks.same("no edit", (status, out), (0, f"{BEFORE_THE_PAWN}: {HOLDS}"))
