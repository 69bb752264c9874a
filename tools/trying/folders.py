"""The folder of a proof: what lies in it, that `make` builds and checks all of it again, and that pgn-extract reads
its game."""

import filecmp
import os
import shutil
import subprocess
import xml.dom.minidom

from proving.resume import last_tables
from trying.endings import (
    BEFORE_THE_PAWN, BOTH_HOLD, CORNER, LOCKED, MATE_IN_ONE, PAWN, PROMOTES, QUEEN, ROOK, Handing, prove, write,
)

PLACES = "/usr/games:/usr/local/games"
THREATS = (("a1b1", "a3a2"), ("a1b1", "b3c3", "b1a1", "c3c2"), ("nonsense",), ("a1a8", "a3a2"))
PROOFS = {
    "win": (PROMOTES, Handing(QUEEN, PAWN)),
    "mate": (MATE_IN_ONE, Handing(ROOK)),
    "hold": (BEFORE_THE_PAWN, Handing(CORNER, threats=THREATS)),
    "draw": (BOTH_HOLD, Handing(LOCKED)),
}
FILES = ["ANSWERS", "Makefile", "PROOF.md", "PROOF.pgn", "PROOF.svg", "SHA256SUMS", "VERDICT", "proof.html", "proof.json"]


def see_folders(programs, checks):
    for name, (fen, searching) in PROOFS.items():
        status, line, err = prove(programs, searching, fen, "--out", name)
        checks.same(f"{name}: the status, with {err}", status, 0)
        cells = [cell.name + end for cell in searching.cells for end in (".t", ".txt")]
        checks.same(f"{name}: the files", sorted(os.listdir(name)), sorted(FILES + cells))
        see_page(name, fen, line, checks)
        see_make(programs, name, line, checks)
        see_game(name, fen, checks)
    see_moves(checks)
    see_altered(programs, checks)
    see_kept(programs, checks)
    paths, fen = last_tables("win")
    checks.same("what explore opens", (paths, fen), (["win/c02.t", "win/c01.t"], PROMOTES))


def text_of(*path):
    with open(os.path.join(*path), encoding="utf-8") as file:
        return file.read()


def see_page(name, fen, line, checks):
    page = text_of(name, "PROOF.md")
    for part in (line.partition(": ")[2], f"`{fen}`", "believed 0", "$ atlas verdict ", "(PROOF.svg)", " to move"):
        checks.see(f"{name}: {part!r} on the page", part in page)
    for word in text_of(name, "SHA256SUMS").split():
        checks.see(f"{name}: {word} on the page", word in page)
    xml.dom.minidom.parse(os.path.join(name, "PROOF.svg"))
    checks.same(f"{name}: the verdict", text_of(name, "VERDICT").strip(), line)


def make(programs, folder, *words):
    done = subprocess.run(
        ["make", "-j2", "-s", "-C", folder, f"FREEZER={programs.freezer}", f"ATLAS={programs.atlas}", *words],
        capture_output=True, text=True, check=False,
    )
    return done.returncode, done.stdout.strip().split("\n")[-1]


def see_make(programs, name, line, checks):
    """In a copy with no table `make` comes to the same tables and the same verdict; a second call has little to do."""
    copy = f"{name}.copy"
    shutil.copytree(name, copy, ignore=shutil.ignore_patterns("*.t"))
    checks.same(f"{name}: make", make(programs, copy), (0, line))
    tables = [table for table in os.listdir(name) if table.endswith(".t")]
    checks.same(f"{name}: the tables", filecmp.cmpfiles(name, copy, tables, False), (tables, [], []))
    checks.same(f"{name}: make again", make(programs, copy), (0, line))
    make(programs, copy, "clean")
    checks.same(f"{name}: cleaned", [file for file in os.listdir(copy) if file.endswith(".t")], [])
    checks.same(f"{name}: make in the folder itself", make(programs, name), (0, line))


def see_game(name, fen, checks):
    """pgn-extract reads the game without a complaint, and writes its position."""
    program = shutil.which("pgn-extract") or shutil.which("pgn-extract", path=PLACES)
    if program is None:
        print("skipped: pgn-extract is not installed (Debian's package pgn-extract)")
        return
    done = subprocess.run([program, "-s", os.path.join(name, "PROOF.pgn")], capture_output=True, text=True, check=False)
    checks.same(f"{name}: what pgn-extract says", (done.returncode, done.stderr), (0, ""))
    checks.see(f"{name}: the position", f'[FEN "{fen}"]' in done.stdout and '[SetUp "1"]' in done.stdout)


def see_moves(checks):
    """The moves of the small endings, which were worked out by hand."""
    win, hold, draw = (text_of(name, "PROOF.md") for name in ("win", "hold", "draw"))
    checks.see("the best line of a win", "**1 a8=Q+ Kh7 2 Qh1#**" in win)
    checks.see("an answer to a threat", "- 1 Kb1 a2+ 2 Ka1" in hold)
    checks.see("no move behind one that is none", "nonsense" not in hold and "a8" not in hold.split("## Texts")[0].split("## Moves")[1])
    checks.see("each first move of a draw", "- 1 " in draw)
    checks.see("the game of a win", "1. a8=Q+ Kh7 2. Qh1# 1-0" in " ".join(text_of("win", "PROOF.pgn").split()))


def see_altered(programs, checks):
    """With another text `make` does not come to the verdict."""
    shutil.copytree("hold", "altered", ignore=shutil.ignore_patterns("*.t"))
    write("altered", "c01.txt", CORNER.text + "# more\n")
    checks.see("make with another comment", make(programs, "altered")[0] != 0)
    write("altered", "c01.txt", CORNER.text.replace("a2,a3", "a3"))
    checks.see("make with another text", make(programs, "altered")[0] != 0)
    os.remove(os.path.join("altered", "c01.txt"))
    checks.see("make with no text", make(programs, "altered")[0] != 0)


def see_kept(programs, checks):
    """A cell that the proof does without goes, unless it shall be kept; what is the user's stays."""
    def leave(folder):
        write(folder, "notes.txt", "mine")
        write(folder, "c07.txt", "freezer 1\n")

    searching = Handing(QUEEN, ROOK_BESIDE, spoil=leave)
    prove(programs, searching, MATE_IN_ONE, "--out", "beside")
    checks.same("what is left", [os.path.exists(f"beside/{name}") for name in ("notes.txt", "c07.txt", "c01.t", "c02.t")],
                [True, False, False, True])
    prove(programs, searching, MATE_IN_ONE, "--out", "kept", "--keep")
    checks.same("what is kept", [os.path.exists(f"kept/{name}") for name in ("notes.txt", "c07.txt", "c01.t", "c02.t")],
                [True, True, True, True])


ROOK_BESIDE = type(ROOK)("c02", ROOK.text, (), ROOK.about)
