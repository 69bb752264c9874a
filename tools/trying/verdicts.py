"""What each answer of `verdict` shows, held against a table that was worked out from docs/users/guide.md and
docs/users/commands.md; and the verdicts on small endings."""

from proving.asking import NothingShown, Told
from proving.proof import Status
from proving.verdict import join, judge, shown_by, statement
from trying.endings import (
    BEFORE_THE_PAWN, BOTH_HOLD, CORNER, LOCKED, MATE_IN_ONE, PAWN, PROMOTES, QUEEN, ROOK, STEPS_ASIDE, Handing, prove,
)

NOTHING = "nothing"
# The words of `verdict` by one table or by several, and what these show.
SHOWN = (
    (("draw",), "Draw"),
    (("white wins, mate within 5",), "White wins (mate within 5 plies)"),
    (("white wins, mate within 1",), "White wins (mate within 1 ply)"),
    (("white wins, mate within 0",), "White wins (it is mate)"),
    (("black wins, mate within 1200",), "Black wins (mate within 1200 plies)"),
    (("white wins",), "White wins"),
    (("black wins",), "Black wins"),
    (("white does not lose",), "White does not lose; whether he wins is open"),
    (("black does not lose",), "Black does not lose; whether he wins is open"),
    (("not shown",), "Not shown"),
    ((), "Not shown"),
    (("white does not lose", "black does not lose"), "Draw"),
    (("white does not lose", "white does not lose"), "White does not lose; whether he wins is open"),
    (("white does not lose", "not shown"), "White does not lose; whether he wins is open"),
    (("white wins", "white wins, mate within 7", "white wins, mate within 9"), "White wins (mate within 7 plies)"),
    (("white does not lose", "white wins, mate within 3"), "White wins (mate within 3 plies)"),
    # What contradicts itself, or is said by no page, shows nothing.
    (("white wins", "black wins"), NOTHING),
    (("white wins, mate within 2", "black does not lose"), NOTHING),
    (("draw", "black wins"), NOTHING),
    (("white hopes",), NOTHING),
    (("white wins, mate within",), NOTHING),
    (("white wins within 5",), NOTHING),
    (("red does not lose",), NOTHING),
    (("",), NOTHING),
)
# What is shown, the claim, its side, and the status of the call.
JUDGED = (
    ("draw", None, None, 0), ("not shown", None, None, 3), ("white does not lose", None, "black", 0),
    ("draw", "draw", None, 0), ("white does not lose", "draw", None, 3), ("white wins", "draw", None, 1),
    ("white does not lose", "hold", "white", 0), ("white does not lose", "hold", "black", 3),
    ("white does not lose", "win", "black", 1), ("white does not lose", "win", "white", 3),
    ("draw", "win", "white", 1), ("draw", "hold", "black", 0),
    ("white wins", "win", "white", 0), ("white wins", "hold", "white", 0), ("white wins", "win", "black", 1),
    ("white wins", "hold", "black", 1), ("not shown", "win", "black", 3), ("not shown", "draw", None, 3),
)


def told_of(said, believed=()):
    """The answer of `verdict`, as it is printed."""
    return Told("last", (), "\n".join((MATE_IN_ONE, said, *believed, f"believed {len(believed)}", "")))


def shown_or_nothing(*told):
    try:
        return statement(join(shown_by(each, MATE_IN_ONE) for each in told))
    except NothingShown:
        return NOTHING


def see_combinations(checks):
    for words, wanted in SHOWN:
        checks.same(f"what {words} shows", shown_or_nothing(*map(told_of, words)), wanted)
    believed = ("table line 6 believed 2k5/8/1K6/8/8/8/8/7R w - - 0 1",)
    checks.same("a believed line", shown_or_nothing(told_of("draw", believed)), NOTHING)
    for text in (
        "", "draw\n", f"{MATE_IN_ONE}\ndraw\n", f"{STEPS_ASIDE}\ndraw\nbelieved 0\n", f"{MATE_IN_ONE}\ndraw\nbelieved 1\n",
        f"{MATE_IN_ONE}\ndraw\nmore\nbelieved 0\n", f"{MATE_IN_ONE}\ndraw\nbelieved 0\nmore\n", f"{MATE_IN_ONE}\ndraw\nbelieved 0",
    ):
        checks.same(f"the verdict {text!r}", shown_or_nothing(Told("last", (), text)), NOTHING)
    for said, claim, side, status in JUDGED:
        outcome = judge(claim, side, shown_by(told_of(said), MATE_IN_ONE))
        checks.same(f"{said} for {claim} of {side}", outcome.value, status)


def see_verdicts(programs, checks):
    """The line and the status of small endings, for claims that hold and others that do not."""
    rook, promotes, corner, locked = Handing(ROOK), Handing(QUEEN, PAWN), Handing(CORNER), Handing(LOCKED)
    open_end = Handing(ROOK, status=Status.PROVED, open_at=("b8c8",), open_fen="anything")
    lost = "2k5/8/1K6/8/8/8/8/7R w - - 0 1"
    holds = "White does not lose; whether he wins is open"
    mate = "White wins (mate within 1 ply)"
    for number, (fen, searching, words, status, line) in enumerate((
        (MATE_IN_ONE, rook, (), 0, mate),
        (MATE_IN_ONE, rook, ("--claim", "win", "--for", "white"), 0, mate),
        (MATE_IN_ONE, rook, ("--claim", "draw"), 1, f"Refuted: {mate}"),
        (MATE_IN_ONE, rook, ("--claim", "hold", "--for", "black"), 1, f"Refuted: {mate}"),
        (STEPS_ASIDE, open_end, (), 3, f"Not shown: after 1.. Kc8 the position {lost} is open"),
        (STEPS_ASIDE, rook, ("--claim", "win", "--for", "white"), 3, "Not shown"),
        (BEFORE_THE_PAWN, corner, (), 0, holds),
        (BEFORE_THE_PAWN, corner, ("--claim", "hold", "--for", "white"), 0, holds),
        (BEFORE_THE_PAWN, corner, ("--claim", "win", "--for", "black"), 1, f"Refuted: {holds}"),
        (BEFORE_THE_PAWN, corner, ("--claim", "hold", "--for", "black"), 3, f"Not shown; shown: {holds}"),
        (BEFORE_THE_PAWN, corner, ("--claim", "win", "--for", "white"), 3, f"Not shown; shown: {holds}"),
        (BOTH_HOLD, locked, (), 0, "Draw"),
        (BOTH_HOLD, locked, ("--claim", "draw"), 0, "Draw"),
        (BOTH_HOLD, locked, ("--claim", "win", "--for", "black"), 1, "Refuted: Draw"),
    )):
        given = prove(programs, searching, fen, "--out", f"proof{number}", *words)[:2]
        checks.same(f"{fen} {' '.join(words)}", given, (status, f"{fen}: {line}"))
    # The mate comes at the third ply; a program that does not count wins in tables behind says that White wins.
    status, out = prove(programs, promotes, PROMOTES, "--out", "promotes")[:2]
    checks.same(f"the status of {PROMOTES}", status, 0)
    checks.see(out, out in (f"{PROMOTES}: White wins{within}" for within in ("", " (mate within 3 plies)")))
