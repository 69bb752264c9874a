"""Each wrong word gets one sentence that says what to do, status 2, and nothing on standard output."""

import os

from trying.endings import MATE_IN_ONE, ROOK, STEPS_ASIDE, Handing, prove, write

MEN = "k7/8/1K6/8/8/8/8/7R"
# The words, and a part of what is said to them.
WRONG = (
    ((), "name a position"),
    ((f"{MEN} w",), "four fields or six"),
    ((f"{MEN} w - - 0",), "This one has 5"),
    (("8/8/8 w - - 0 1",), "rank 5 of the FEN"),
    ((f"{MEN}/8 w - - 0 1",), "more than eight ranks"),
    ((f"{MEN} x - - 0 1",), "w or b"),
    ((f"{MEN} w KQ - 0 1",), "no castling"),
    ((f"{MEN} w - e3 0 1",), "on rank 6 with White to move"),
    ((f"{MEN} w - e6 0 1",), "no pawn can have passed"),
    ((f"{MEN} w - - zero 1",), "numbers"),
    (("8/8/1K6/8/8/8/8/7R w - - 0 1",), "one king"),
    (("kP6/8/1K6/8/8/8/8/7R w - - 0 1",), "first or the last rank"),
    (("k6R/8/1K6/8/8/8/8/8 w - - 0 1",), "could take the king"),
    ((MATE_IN_ONE, "--fro", "white"), "--fro"),
    ((MATE_IN_ONE, "--for"), "expected one argument"),
    ((MATE_IN_ONE, "--for", "blue"), "white or black"),
    ((MATE_IN_ONE, "--claim", "loss"), "win or hold or draw"),
    ((MATE_IN_ONE, "--claim", "win"), "add --for white or --for black"),
    ((MATE_IN_ONE, "--limit", "many"), "--limit is a whole number"),
    ((MATE_IN_ONE, "--limit", "0"), "--limit is a whole number"),
    ((MATE_IN_ONE, "--tables", "18"), "from 1 to 17"),
    ((MATE_IN_ONE, "--seconds", "-3"), "--seconds"),
    ((MATE_IN_ONE, "--out", "full"), "is not an empty folder"),
    ((MATE_IN_ONE, "--out", "full/file"), "is not an empty folder"),
    ((MATE_IN_ONE, "--out", "full/file/below"), "cannot be made"),
    ((MATE_IN_ONE, "--out", "new", "--resume", "old"), "leave --out away"),
    (("--resume", "full"), "no folder of ./prove"),
    (("--resume", "old"), "cannot be read"),
    (("--resume", "other", MATE_IN_ONE), "about another position"),
)


def never(*_, **__):
    raise AssertionError("the search was called")


def see_words(programs, checks):
    for folder, name, text in (("full", "file", "mine"), ("old", "proof.json", "{"),):
        os.mkdir(folder)
        write(folder, name, text)
    prove(programs, Handing(ROOK), STEPS_ASIDE, "--out", "other")
    before = sorted(os.listdir("."))
    for words, part in WRONG:
        status, out, err = prove(programs, never, *words)
        checks.same(f"the status and the output of {words}", (status, out), (2, ""))
        checks.see(f"what is said to {words}: {err}", part in err and err.count("\n") == 1)
    checks.same("the files", sorted(os.listdir(".")), before)
    see_programs(programs, checks)
    see_ends(programs, checks)
    see_loose_words(programs, checks)
    see_stopped(programs, checks)


def see_stopped(programs, checks):
    """Ctrl-C keeps the folder and names the call that goes on; that call hands on what the first one was asked."""
    def stop(*_, **__):
        raise KeyboardInterrupt

    words = (MATE_IN_ONE, "--for", "white", "--claim", "win", "--out", "stopped here")
    status, out, err = prove(programs, stop, *words)
    checks.same("a call that is stopped", (status, out, os.path.isdir("stopped here")), (130, "", True))
    checks.see(f"how to go on: {err}", "./prove --resume 'stopped here'" in err)
    asked = []

    def note(fen, side, claim, *rest):
        asked.append((fen, side, claim, rest[-1]))
        return Handing(ROOK)(fen, side, claim, *rest)

    status, out, _ = prove(programs, note, "--resume", "stopped here")
    checks.same("what goes on", asked, [(MATE_IN_ONE, "white", "win", True)])
    checks.same("its verdict", (status, out), (0, f"{MATE_IN_ONE}: White wins (mate within 1 ply)"))


def see_programs(programs, checks):
    """A program that is not there."""
    missing = type(programs)("nowhere", programs.atlas)
    status, _, err = prove(missing, never, MATE_IN_ONE)
    checks.same("no program", (status, "no program is at nowhere" in err), (2, True))


def see_ends(programs, checks):
    """A game that is over needs no table."""
    for fen, words, wanted in (
        ("k6R/8/1K6/8/8/8/8/8 b - - 0 1", (), (0, "White wins: Black is mated")),
        ("k6R/8/1K6/8/8/8/8/8 b - - 0 1", ("--claim", "draw"), (1, "Refuted: White wins: Black is mated")),
        ("k7/2K5/1Q6/8/8/8/8/8 b - - 0 1", (), (0, "Draw: Black is stalemated")),
    ):
        status, out, _ = prove(programs, never, fen, *words)
        checks.same(f"{fen} {words}", (status, out), (wanted[0], f"{fen}: {wanted[1]}"))


def see_loose_words(programs, checks):
    """A FEN without quotes, without clocks, and with a target that no pawn can take."""
    for words in ((*f"{MEN} w - -".split(),), (f" {MEN}  w - - 12 40 ",)):
        status, out, _ = prove(programs, Handing(ROOK), *words)
        checks.same(f"the words {words}", (status, out.split(":")[0]), (0, MATE_IN_ONE))
    checks.same("new folders", [os.path.isdir(name) for name in ("proof", "proof-2", "proof-3")], [True, True, False])
    status, out, _ = prove(programs, Handing(), "8/8/8/4P3/8/8/8/k1K5 b - - 0 1", "--out", "target")
    checks.same("no cell", (status, out), (3, "8/8/8/4P3/8/8/8/k1K5 b - - 0 1: Not shown: no table has the position"))
