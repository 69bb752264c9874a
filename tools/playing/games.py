"""Games of the engine with itself over tables of the built programs."""

from __future__ import annotations

import os
import re
import subprocess
import time

from board.bounds import WIN, read_bound
from board.programs import TOP
from clicking.checks import Checks

from .engine import Engine, best, firsts

ROOK = "8/8/8/4k3/8/8/8/K6R w - - 0 1"
ZUGZWANG = "8/8/6k1/p1p1p3/PpP1P1K1/1P6/8/8 b - - 0 1"
PAWN = "8/k1P5/8/K7/8/8/8/8 w - - 0 1"
LARGE = """freezer 1
group white 1 K:all
group white 1 Q:a1-d8
group white 1 R:all
group black 1 K:all
"""
MANY = "7R/8/8/8/3Q4/8/k7/6K1 w - - 0 1"
MOST = 0.05  # seconds from `go` to the best move on a table of 2^24 numbers


def told(*words: str) -> list[str]:
    return subprocess.run(words, capture_output=True, text=True, check=True).stdout.splitlines()


def build(programs: dict[str, str], name: str, folder: str, *backs: str) -> str:
    """The table of one of examples/, over others by `atlas`."""
    table = os.path.join(folder, f"{name}.t")
    told(programs["atlas" if backs else "freezer"], "build", os.path.join(TOP, "examples", name), table, *backs)
    return table


def play(engine: Engine, fen: str) -> list[str]:
    """The moves of the engine against itself, until it has none."""
    moves: list[str] = []
    while len(moves) < 200:
        move = best(engine.ask(f"position fen {fen} moves {' '.join(moves)}".rstrip(), "go movetime 10"))
        if move == "(none)":
            break
        moves.append(move)
    return moves


def end_of(programs: dict[str, str], fen: str, moves: list[str]) -> str:
    """What `freezer moves` says behind these moves, which must all be legal."""
    for move in moves:
        named = dict(zip(*(told(programs["freezer"], command, fen)[0].split() for command in ("moves", "sans"))))
        fen = told(programs["freezer"], "move", fen, named[move])[1]
    return told(programs["freezer"], "moves", fen)[0]


def see_order(programs, engine, table, fen, checks):
    """The moves of `each`, in its order, with a score that fits what it says of each."""
    rows = [row.split(" ", 1) for row in told(programs["atlas"], "each", table, fen)]
    named = dict(zip(*(told(programs["freezer"], command, fen)[0].split() for command in ("sans", "moves"))))
    lines = firsts(engine.ask("setoption name MultiPV value 256", f"position fen {fen}", "go"))
    checks.same("the moves of each", [line.split()[-1] for line in lines], [named[san] for san, _ in rows])
    for (san, said), line in zip(rows, lines):
        win = re.match(r"white wins within (\d+)", said)
        if win:
            sign = 1 if fen.split()[1] == "w" else -1
            plies = int(win[1]) + 1
            wanted = {f"score cp {sign * (20000 - plies)} ", f"score mate {sign * ((plies + (sign > 0)) // 2)} "}
            checks.see(f"a win behind {san}", any(words in line for words in wanted))
    engine.ask("setoption name MultiPV value 1", "go")


def play_games(programs: dict[str, str], folder: str, checks: Checks):
    """Wins to the mate: in one table, and through a table behind."""
    rook = build(programs, "rook", folder)
    with Engine(programs, rook) as engine:
        see_order(programs, engine, rook, ROOK, checks)
        plies = read_bound(told(programs["freezer"], "query", rook, ROOK)[0]).plies
        moves = play(engine, ROOK)
        checks.same("a rook's win has its plies", len(moves), plies)
        checks.same("and ends in mate", end_of(programs, ROOK, moves), "mate")
        checks.same("the first score", firsts(engine.ask(f"position fen {ROOK}", "go"))[0].split(" pv ")[0],
                    f"depth 1 multipv 1 score mate {(plies + 1) // 2}")
    zugzwang = build(programs, "zugzwang", folder)
    with Engine(programs, zugzwang) as engine:
        see_order(programs, engine, zugzwang, ZUGZWANG, checks)
    back = build(programs, "pawn_back", folder)
    pawn = build(programs, "pawn", folder, back)
    with Engine(programs, pawn, back) as engine:
        plies = read_bound(told(programs["atlas"], "query", pawn, PAWN)[0]).plies
        moves = play(engine, PAWN)
        checks.same("a pawn's win has its plies, through its promotion", len(moves), plies)
        checks.same("and ends in mate behind it", end_of(programs, PAWN, moves), "mate")
        told_first = engine.ask(f"position fen {PAWN}", "go infinite", "stop")
        checks.see("counted to the mate", f"score mate {(plies + 1) // 2} " in firsts(told_first)[0])


def time_large(programs: dict[str, str], folder: str, checks: Checks):
    """The time from `go` to the best move, each time at a position that was not asked before."""
    text, table = os.path.join(folder, "large"), os.path.join(folder, "large.t")
    with open(text, "w", encoding="utf-8") as file:
        file.write(LARGE)
    told(programs["freezer"], "build", text, table)
    with Engine(programs, table) as engine:
        engine.ask(f"position fen {MANY}", "go")
        times = []
        for row in ("3K4", "4K3", "5K2", "7K"):
            engine.send(f"position fen {MANY.replace('6K1', row)}", "isready")
            engine.until("readyok")
            begun = time.monotonic()
            engine.ask("go")
            times.append(time.monotonic() - begun)
    print(f"16777216 numbers: {1000 * min(times):.0f} to {1000 * max(times):.0f} ms from go to bestmove")
    checks.see("in 50 ms", min(times) <= MOST)
