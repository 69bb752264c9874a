"""One process of Stockfish, asked by the UCI protocol."""

import subprocess
import sys


class Stockfish:
    """A running Stockfish, and the version that it names."""

    def __init__(self, path):
        self.process = subprocess.Popen(
            [path], stdin=subprocess.PIPE, stdout=subprocess.PIPE, text=True, bufsize=1
        )
        self.tell("uci")
        self.version = self.read_until("id name ")[-1].removeprefix("id name ")
        self.read_until("uciok")

    def tell(self, line):
        self.process.stdin.write(line + "\n")
        self.process.stdin.flush()

    def read_until(self, start):
        """The lines up to the first with this beginning, and that one last."""
        lines = []
        while not lines or not lines[-1].startswith(start):
            line = self.process.stdout.readline()
            if not line:
                sys.exit("Stockfish ended")
            lines.append(line.strip())
        return lines
