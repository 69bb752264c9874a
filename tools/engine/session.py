"""A session of the UCI protocol: its commands, one a line, read and answered. An unknown word is skipped, and
so is a line without a known one, as the protocol says."""

from __future__ import annotations

import threading
from dataclasses import replace
from typing import Callable, Iterable

from board.asking import Asking, Refused
from board.head import NoTable

from .search import Options, Search, Wanted

BEGINNING = "rnbqkbnr/pppppppp/8/8/8/8/PPPPPPPP/RNBQKBNR w KQkq - 0 1"
MOST_LINES = 256
WORDS_OF_GO = frozenset(
    "searchmoves ponder wtime btime winc binc movestogo depth nodes mate movetime infinite".split()
)


class Session:
    """One session about some tables. `write` takes a line of the engine's."""

    def __init__(self, asking: Asking, write: Callable[[str], None]):
        self.asking = asking
        self.write = write
        self.writing = threading.Lock()
        self.options = Options()
        self.fen = BEGINNING
        self.wrong = ""
        self.search: Search | None = None
        self.thread: threading.Thread | None = None

    def tell(self, line: str):
        with self.writing:
            self.write(line)

    def run(self, lines: Iterable[str]):
        """Answers these lines, until `quit` or their end."""
        for line in lines:
            words = line.split()
            while words and words[0] not in COMMANDS:
                words.pop(0)
            if words[:1] == ["quit"]:
                break
            if words:
                COMMANDS[words[0]](self, words[1:])
        self.stop()

    def introduce(self, _):
        self.tell(f"id name Freezer {self.asking.tables.heads[0].name}")
        self.tell("id author the authors of Freezer")
        self.tell(f"option name MultiPV type spin default 1 min 1 max {MOST_LINES}")
        self.tell("option name ShowNone type check default true")
        self.tell("uciok")

    def be_ready(self, _):
        self.tell("readyok")

    def set_option(self, words: list[str]):
        """`name NAME value VALUE`; what is no option, and a value that is none, changes nothing."""
        name, _, value = " ".join(words).partition(" value ")
        name = name.removeprefix("name ").strip().lower()
        if name == "multipv" and value.strip().isdecimal():
            self.options.lines = max(1, min(MOST_LINES, int(value)))
        if name == "shownone" and value.strip() in ("true", "false"):
            self.options.show_none = value.strip() == "true"

    def begin_game(self, _):
        self.stop()
        self.fen, self.wrong = BEGINNING, ""

    def place(self, words: list[str]):
        """`startpos` or `fen FEN`, and the moves behind it. What is refused is told at the next `go`."""
        self.stop()
        at = words.index("moves") if "moves" in words else len(words)
        fen = " ".join(words[1:at]) if words[:1] == ["fen"] else BEGINNING
        self.fen, self.wrong = fen, ""
        try:
            for text in words[at + 1 :]:
                self.fen = self.asking.after_text(self.fen, text)
        except Refused as why:
            self.wrong = str(why)

    def go(self, words: list[str]):
        self.stop()
        self.search = search = Search(self.asking, self.tell, wanted_by(words), replace(self.options))
        wrong = self.wrong or self.refresh()
        task, word = (search.end, f"info string {wrong}") if wrong else (search.run, self.fen)
        self.thread = threading.Thread(target=task, args=(word,), daemon=True)
        self.thread.start()

    def refresh(self) -> str:
        """Reads tables anew that were written anew; what is wrong with them, if anything is."""
        try:
            self.asking.tables.refresh()
        except NoTable as why:
            return str(why)
        return ""

    def stop(self, _=()):
        """Ends the search, which then has told its best move."""
        if self.search:
            self.search.stop()
            self.thread.join()
            self.search = None

    def go_on(self, _):
        """The move that was pondered on was played: the best move is wanted now."""
        if self.search:
            self.search.stop()


COMMANDS: dict[str, Callable[[Session, list[str]], None]] = {
    "uci": Session.introduce,
    "isready": Session.be_ready,
    "setoption": Session.set_option,
    "ucinewgame": Session.begin_game,
    "position": Session.place,
    "go": Session.go,
    "stop": Session.stop,
    "ponderhit": Session.go_on,
    "quit": Session.stop,
}


def wanted_by(words: list[str]) -> Wanted:
    """What these words behind `go` ask for."""
    moves: list[str] = []
    for word in words[words.index("searchmoves") + 1 :] if "searchmoves" in words else []:
        if word in WORDS_OF_GO:
            break
        moves.append(word)
    return Wanted(frozenset(moves), bool({"infinite", "ponder"} & set(words)))
