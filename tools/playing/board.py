"""XBoard with the engine, by Polyglot, on a screen in memory: a win played to the mate, and an analysis."""

from __future__ import annotations

import os
import shlex
import shutil
import subprocess
import sys
import time

from clicking.checks import Checks

from .engine import TOOLS
from .games import ROOK, ZUGZWANG, build

NEEDED = {"xboard": "xboard", "polyglot": "polyglot", "Xvfb": "xvfb"}
PATH = os.environ["PATH"] + ":/usr/games"
LONGEST = 120  # seconds for a game
SCREEN = "960x545x24"
# XBoard asks and remembers nothing, and shows what the engine thinks.
QUIETLY = (
    "-popupMoveErrors false -popupExitMessage false -saveSettingsOnExit false -usePolyglotBook false"
    " -useBoardTexture false -showThinking true -size 54 -startupMessage"
).split() + [""]


def missing() -> list[str]:
    """The packages that are not installed."""
    return [package for name, package in NEEDED.items() if shutil.which(name, path=PATH) is None]


class Screen:
    """A screen in memory, with what is started on it."""

    def __init__(self, folder: str):
        self.folder = folder
        reading, writing = os.pipe()
        words = ["Xvfb", "-displayfd", str(writing), "-screen", "0", SCREEN, "-nolisten", "tcp"]
        self.server = subprocess.Popen(words, pass_fds=(writing,), stderr=subprocess.DEVNULL)
        os.close(writing)
        with os.fdopen(reading) as told:
            number = told.readline().strip()
        self.surroundings = {**os.environ, "PATH": PATH, "DISPLAY": f":{number}", "HOME": folder}

    def __enter__(self):
        return self

    def __exit__(self, *_):
        self.server.terminate()
        self.server.wait()

    def start(self, *words: str) -> subprocess.Popen:
        with open(os.path.join(self.folder, "said"), "w", encoding="utf-8") as said:
            return subprocess.Popen(words, env=self.surroundings, cwd=self.folder, stdin=subprocess.DEVNULL,
                                    stdout=said, stderr=subprocess.STDOUT, start_new_session=True)

    def spread(self):
        """Puts the windows beside each other, where xdotool is installed: nobody else does it here."""
        if shutil.which("xdotool"):
            words = "search --name Engine windowmove 448 0 windowsize 510 535".split()
            subprocess.run(["xdotool", *words], env=self.surroundings, check=False)
            time.sleep(1)

    def picture(self, path: str):
        """A picture of the whole screen, where ImageMagick is installed."""
        if shutil.which("import") is None:
            print("skipped: no picture; import is not installed (Debian's package imagemagick)")
            return
        subprocess.run(["import", "-window", "root", path], env=self.surroundings, check=True)


class Board:
    """XBoard with the engine over a table, at a position. What it says to the engine and hears of it stands in
    the file `debug`."""

    def __init__(self, screen: Screen, programs: dict[str, str], table: str, fen: str):
        engine = [sys.executable, os.path.join(TOOLS, "uci"), table]
        engine += ["--program", programs["freezer"], "--atlas", programs["atlas"]]
        self.screen, self.folder = screen, screen.folder
        with open(self.path("start.fen"), "w", encoding="utf-8") as file:
            file.write(fen + "\n")
        self.words = [
            "xboard", *QUIETLY, "-fUCI", "-fcp", shlex.join(engine), "-sUCI", "-scp", shlex.join(engine),
            "-loadPositionFile", self.path("start.fen"), "-loadPositionIndex", "1",
            "-debugMode", "true", "-nameOfDebugFile", self.path("debug"),
        ]

    def path(self, name: str) -> str:
        return os.path.join(self.folder, name)

    def read(self, name: str) -> str:
        try:
            with open(self.path(name), encoding="utf-8", errors="replace") as file:
                return file.read()
        except FileNotFoundError:
            return ""

    def play(self) -> str:
        """The game of the engine against itself, as XBoard saves it, which ends by itself."""
        child = self.screen.start(*self.words, "-matchGames", "1", "-saveGameFile", self.path("game.pgn"))
        try:
            child.wait(LONGEST)
        except subprocess.TimeoutExpired:
            child.kill()
            child.wait()
        return self.read("game.pgn")

    def analyse(self, seconds: float, picture: str | None) -> str:
        """What is heard of the engine while it analyses; a picture of that."""
        adapter = 'polyglot -noini -ec "%fcp" -ed "%fd" -uci MultiPV=8'
        words = ["-initialMode", "analysis", "-engineOutputUp", "true", "-adapterCommand", adapter]
        child = self.screen.start(*self.words, *words)
        time.sleep(seconds)
        if picture:
            self.screen.spread()
            self.screen.picture(picture)
        child.terminate()
        child.wait()
        return self.read("debug")


def play_on_board(programs: dict[str, str], folder: str, picture: str | None, checks: Checks):
    """A rook's win to the mate, and an analysis of blocked pawns."""
    if missing():
        print(f"skipped: XBoard; not installed: {', '.join(missing())} (Debian's packages)")
        return
    with Screen(folder) as screen:
        game = Board(screen, programs, build(programs, "rook", folder), ROOK).play()
        checks.see("the win is played to the mate", "1-0" in game and "#" in game)
        heard = Board(screen, programs, build(programs, "zugzwang", folder), ZUGZWANG).analyse(6, picture)
        checks.see("the moves and those behind them are heard", " Kf6 Kh5 Ke7 " in heard)
