"""Processes of `atlas ask`: tables that are loaded once, and then answer positions, a line each."""

import subprocess
import threading

from .calls import LONGEST, NotBuilt, end

MOST = 2  # processes at once, each with its tables in memory
PATIENCE = 0.3  # seconds that a question waits for the tables to be loaded
# A line that is no position, whose answer comes as soon as the tables are loaded.
GREETING, REFUSED = "?", "fen: fields"


class Asker:
    """One process. Until its tables are loaded, and once it has ended, it answers nothing."""

    def __init__(self, calls, words):
        self.lock = threading.Lock()
        self.greeted = threading.Event()
        self.loaded = False
        self.child = None
        try:
            self.child = calls.start(*words, stdin=subprocess.PIPE)
        except (NotBuilt, OSError, ValueError):
            self.greeted.set()
            return
        threading.Thread(target=self.greet, daemon=True).start()

    def greet(self):
        with self.lock:
            self.loaded = self.exchange([GREETING]) == [REFUSED]
        self.greeted.set()

    def ask(self, fens):
        """The answers to these positions, or nothing where it cannot answer."""
        if not self.greeted.wait(PATIENCE) or not self.loaded:
            return None
        watch = threading.Timer(LONGEST, self.end)
        with self.lock:
            watch.start()
            answers = self.exchange(fens)
            watch.cancel()
        self.loaded = all(answers)
        return answers if self.loaded else None

    def exchange(self, lines):
        """Its answer to each line; an empty text where none comes."""
        try:
            self.child.stdin.write("".join(f"{line}\n" for line in lines).encode())
            self.child.stdin.flush()
            return [self.child.stdout.readline().decode().rstrip("\n") for _ in lines]
        except (OSError, ValueError):
            return [""] * len(lines)

    def end(self):
        if self.child:
            end(self.child)
            self.child.wait()


class Askers:
    """The processes by the places of the tables that they lead with, over the tables on which these lean."""

    def __init__(self, calls, tables):
        self.calls = calls
        self.tables = tables
        self.lock = threading.Lock()
        self.age = tables.age
        self.askers = {}

    def ask(self, place, fens):
        """What the table at this place answers to these positions with those on which it leans; nothing where
        it is not loaded yet, or cannot be asked."""
        with self.lock:
            asker = self.at(place)
        return asker.ask(fens) if fens else []

    def at(self, place):
        """The process of a place, which may have just begun."""
        if self.age != self.tables.age:
            self.age = self.tables.age
            self.drop(0)
        if place not in self.askers:
            self.drop(MOST - 1)
            backs = [back.path for back in self.tables.leant_on(place)]
            self.askers[place] = Asker(self.calls, ("atlas", "ask", self.tables.heads[place].path, *backs))
        return self.askers[place]

    def drop(self, most):
        """Ends the oldest processes but for so many."""
        while len(self.askers) > most:
            self.askers.pop(next(iter(self.askers))).end()
