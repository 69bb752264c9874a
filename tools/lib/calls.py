"""Each command of `freezer` and of `atlas` in one call or two, and the files that it meets."""

import os
import subprocess

from lib.running import REPOSITORY, Program

MATE_IN_ONE = "k7/8/1K6/8/8/8/8/7R w - - 0 1"
MATE_IN_TWO = "k7/8/1K6/8/8/8/8/7R b - - 0 1"
A = (
    "freezer 1\ngroup white 1 K:b6\ngroup white 1 R:h1,h8\ngroup black 1 K:a8,b8\n"
)
# As A, with an exit line that nothing proves.
E = A + "exit white wins if on:black:K:c8\n"
# Its positions are those outside A to which Black's king can step.
N = "freezer 1\ngroup white 1 K:b6\ngroup white 1 R:h1,h8\ngroup black 1 K:c8\n"

COMMANDS = {"freezer": [
    ("build", "A", "B.t"),
    ("build", "A", "A.t"),
    ("check", "A.t"),
    ("query", "A.t", MATE_IN_ONE),
    ("solve", "A", MATE_IN_ONE),
    ("line", "A.t", MATE_IN_ONE, "white"),
    ("play", "A.t", MATE_IN_TWO, "white"),
    ("report", "A.t"),
    ("migrate", "former.t", "M.t"),
    ("migrate", "former.t", "A.t"),
    ("chain", "A", "N.t", "AN.t"),
    ("chaincheck", "AN.t", "N.t"),
    ("chainquery", "AN.t", MATE_IN_ONE),
], "atlas": [
    ("size", "A"),
    ("build", "A", "B.t", "N.t"),
    ("build", "A", "L.t", "N.t"),
    ("check", "L.t", "N.t"),
    ("query", "L.t", MATE_IN_ONE),
    ("report", "L.t", "N.t"),
    ("each", "L.t", MATE_IN_ONE, "N.t"),
    ("line", "L.t", MATE_IN_TWO, "white", "N.t"),
    ("play", "L.t", MATE_IN_TWO, "white", "N.t"),
    ("why", "L.t", MATE_IN_TWO, "black", "N.t"),
    ("why", "A.t", MATE_IN_TWO, "black"),
    ("premises", "E", "N.t"),
    ("verdict", "L.t", MATE_IN_TWO, "N.t"),
    ("verdict", "A.t", MATE_IN_TWO),
]}
# What a session reads: an illegal move, and then a legal one.
TYPED = b"b6b7\na8b8\n"


class Place:
    """A folder with the files that a command meets."""

    def __init__(self, programs):
        self.programs = programs

    def filled(self, folder):
        """Puts the files that are there before each call into the folder."""
        for name, text in (("A", A), ("E", E), ("N", N)):
            with open(os.path.join(folder, name), "w", encoding="utf-8") as file:
                file.write(text)
        self.call(folder, "freezer", ("build", "A", "A.t"))
        self.call(folder, "freezer", ("build", "N", "N.t"))
        self.call(folder, "freezer", ("chain", "A", "N.t", "AN.t"))
        if "atlas" in self.programs:
            self.call(folder, "atlas", ("build", "A", "L.t", "N.t"))
        # Each group has one man, so the former numbers of A are those of today.
        with open(os.path.join(folder, "A.t"), "rb") as table:
            content = table.read()
        with open(os.path.join(folder, "former.t"), "wb") as former:
            former.write(b"FREEZER1" + content[8:])

    def call(self, folder, program, words, under=None, first=None):
        """The status and the text of one call, with these words of the environment; `first` is done
        where the program is about to begin."""
        done = subprocess.run(
            [self.programs[program], *words], cwd=folder, env={**os.environ, **(under or {})},
            input=TYPED, stdout=subprocess.PIPE, check=False, preexec_fn=first,
        )
        return done.returncode, done.stdout

    def commands(self):
        """The calls of the programs that there are, each with the program's name."""
        for name, calls in COMMANDS.items():
            for words in calls:
                if name in self.programs and Program(self.programs[name]).knows(*words):
                    yield name, words
                else:
                    print(f"skipped: there is no {name} with the command {words[0]}")


def held(folder):
    """What each file of the folder holds."""
    found = {}
    for name in sorted(os.listdir(folder)):
        with open(os.path.join(folder, name), "rb") as file:
            found[name] = file.read()
    return found


def restore(folder, files):
    for name, content in files.items():
        with open(os.path.join(folder, name), "wb") as file:
            file.write(content)


def built(name, path):
    """The built program: behind the script of this repository, the one that it runs."""
    if os.path.abspath(path) != os.path.join(REPOSITORY, name):
        return os.path.abspath(path)
    return os.path.join(REPOSITORY, "crates", name, "out", name)


def programs_of(options):
    """The built programs that there are, by their names. `freezer` is built first where it is not."""
    Program(options.program).run("moves", MATE_IN_ONE)
    paths = {"freezer": built("freezer", options.program), "atlas": built("atlas", options.atlas)}
    return {name: path for name, path in paths.items() if os.access(path, os.X_OK)}
