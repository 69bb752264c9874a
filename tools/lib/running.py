"""Calls of the program under test and of the programs that it is compared with."""

import argparse
import os
import shutil
import subprocess
import sys

REPOSITORY = os.path.dirname(os.path.dirname(os.path.dirname(os.path.abspath(__file__))))


class Program:
    """The program under test: a call for each question."""

    def __init__(self, path):
        self.path = path

    def run(self, *words, given=""):
        """The status and the text of one call."""
        done = subprocess.run(
            [self.path, *words], input=given, stdout=subprocess.PIPE, text=True, check=False
        )
        return done.returncode, done.stdout

    def answer(self, *words):
        """The text of a call that has to end with status 0."""
        status, text = self.run(*words)
        if status != 0:
            sys.exit(f"{' '.join(words)}: status {status}, {text!r}")
        return text

    def knows(self, *words):
        """Whether the words are a command of this program, whatever it answers to them."""
        return self.run(*words) != (2, "words: command\n")


def arguments(about, program="freezer", files=None, **further):
    """The options that each tool takes, and whole numbers and words of its own with their defaults.

    A tool that calls no program has none, and one that takes files has a word for them.
    """
    parser = argparse.ArgumentParser(description=about)
    if program:
        parser.add_argument(
            "--program", default=os.path.join(REPOSITORY, program), help="the program under test"
        )
    if files:
        parser.add_argument("files", nargs="*", metavar=files)
    parser.add_argument("--seed", type=int, default=1, help="one seed gives the same questions")
    for name, default in further.items():
        parser.add_argument(f"--{name}", type=type(default), default=default)
    return parser.parse_args()


def find_or_skip(name, package):
    """The path of an installed program; where there is none, says so and ends with status 0."""
    path = shutil.which(name) or shutil.which(name, path="/usr/games:/usr/local/games")
    if path is None:
        print(f"skipped: {name} is not installed (Debian's package {package})")
        sys.exit(0)
    return path


class Differences:
    """Counts what was compared, and prints the first differences."""

    SHOWN = 20

    def __init__(self):
        self.count = 0

    def add(self, *lines):
        self.count += 1
        if self.count <= self.SHOWN:
            print("DIFFERENCE", *lines, sep="\n  ", flush=True)

    def compare(self, what, given, wanted):
        """True where both are the same."""
        if given != wanted:
            self.add(what, f"program: {given!r}", f"other:   {wanted!r}")
        return given == wanted

    def finish(self, counts):
        """Prints the line of counts, and ends the tool."""
        print(f"{counts}, {self.count} differences")
        sys.exit(1 if self.count else 0)
