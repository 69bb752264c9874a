"""tools/uci as a chess program meets it: lines in, lines out."""

from __future__ import annotations

import os
import queue
import re
import subprocess
import sys
import threading
import time

TOOLS = os.path.dirname(os.path.dirname(os.path.abspath(__file__)))
PATIENCE = 20  # seconds for an answer, on a busy machine


class Engine:
    """A session with the engine over some tables."""

    def __init__(self, programs: dict[str, str], *tables: str):
        words = [sys.executable, os.path.join(TOOLS, "uci"), *tables]
        words += ["--program", programs["freezer"], "--atlas", programs["atlas"]]
        self.child = subprocess.Popen(words, stdin=subprocess.PIPE, stdout=subprocess.PIPE, text=True)
        self.lines: queue.Queue[str] = queue.Queue()
        threading.Thread(target=self.read, daemon=True).start()

    def read(self):
        for line in self.child.stdout:
            self.lines.put(line.rstrip("\n"))

    def __enter__(self):
        return self

    def __exit__(self, *_):
        self.child.kill()
        self.child.wait()

    def send(self, *lines: str):
        for line in lines:
            print(line, file=self.child.stdin, flush=True)

    def until(self, word: str) -> list[str]:
        """The lines up to the first that begins with this word; fewer where it does not come in time."""
        found, end = [], time.monotonic() + PATIENCE
        while not found or found[-1].split(" ")[0] != word:
            try:
                found.append(self.lines.get(timeout=max(0.01, end - time.monotonic())))
            except queue.Empty:
                break
        return found

    def ask(self, *lines: str) -> list[str]:
        """What is told up to the best move, with no times."""
        self.send(*lines)
        return [re.sub(r" nodes \d+ time \d+", "", line) for line in self.until("bestmove")]

    def is_silent(self, seconds: float) -> bool:
        """Whether no best move comes for so long."""
        end = time.monotonic() + seconds
        while time.monotonic() < end:
            try:
                if self.lines.get(timeout=0.02).startswith("bestmove"):
                    return False
            except queue.Empty:
                pass
        return True

    def quit(self) -> int:
        """Its status behind `quit`."""
        self.send("quit")
        return self.child.wait(PATIENCE)


def firsts(lines: list[str]) -> list[str]:
    """The first line on each move that is shown, without the moves that follow it."""
    return [line.removeprefix("info ") for line in lines if line.startswith("info depth 1 ")]


def best(lines: list[str]) -> str:
    return lines[-1].removeprefix("bestmove ") if lines else ""
