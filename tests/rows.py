#!/usr/bin/env python3
"""Calls the built programs as tests/rows/*.txt, or the files that are named, say: status, output and files.

What stands before the first block of a file comes first in each of them. A block has a folder of its own, and its
lines come in turn. After a call every file must be as before, but for those that the call is to write. STRING is one
of JSON, whose characters are bytes; lines that begin with four spaces go on with the line above.

    == NAME                                 a block
    text NAME                               a file with the lines below, without the four spaces
    bytes NAME STRING                       a file with these bytes
    table NAME MAGIC TEXT [size N] CODE ..  a table of the file TEXT, White's codes first
    front NAME OF LENGTH                    the first bytes of the file OF
    longer NAME OF STRING                   the file OF, and these bytes
    change NAME OF PLACE=BYTE ..            the file OF with other bytes at these places
    $ PROGRAM WORD ..                       a call, with words as a shell has them
    < STRING                                what is typed; N times STRING, as in the output
    LINE                                    a line of the output; or, instead of all lines:
    begins STRING | has STRING              what the output begins with; what is in it
    status N                                the status, if it is not 0
    writes NAME [like OF | of N]            a file that is written: the bytes of the file OF, or N bytes
"""

import argparse
import os
import re
import shlex
import subprocess
import sys
import tempfile
from collections import namedtuple

sys.dont_write_bytecode = True
HERE = os.path.dirname(os.path.realpath(__file__))
TOP = os.path.dirname(HERE)
sys.path.insert(0, os.path.join(TOP, "tools"))

from board.calls import NotBuilt
from lib.handmade import KINDS, bytes_of

NAMES = ("freezer", "atlas")
OTHER_WORDS = ("<", "begins", "has", "status", "writes")
SECONDS = 60

Step = namedtuple("Step", "number line below")
Answer = namedtuple("Answer", "status text told")


def repeated(line, end=""):
    """The bytes of a line: those of a string so many times, or its own."""
    times = re.fullmatch(r'(?:(\d+) times )?(".*")', line)
    return int(times[1] or 1) * bytes_of(times[2]) if times else (line + end).encode("latin-1")


def read_blocks(path):
    """The blocks of a file: the name of each, and its steps."""
    head, blocks = [], []
    steps = head
    with open(path, encoding="utf-8") as file:
        for number, line in enumerate(file.read().splitlines(), 1):
            if line.startswith("== "):
                steps = list(head)
                blocks.append((line[3:], steps))
            elif line.startswith("$ ") or line.split(" ")[0] in KINDS:
                steps.append(Step(number, line, []))
            elif line and not line.startswith("#"):
                steps[-1].below.append(line.removeprefix("    "))
    return blocks


def make_file(step, files):
    kind, name, *words = re.findall(r'"(?:[^"\\]|\\.)*"|\S+', step.line)
    files[name] = KINDS[kind](files, step.below, *words)
    with open(name, "wb") as file:
        file.write(files[name])


def read_folder():
    files = {}
    for name in os.listdir():
        with open(name, "rb") as file:
            files[name] = file.read()
    return files


def lines_of(step, word):
    """What follows this word in the lines of a call."""
    return [line[len(word) + 1:] for line in step.below if line.startswith(word + " ")]


def call(step, programs):
    name, *words = shlex.split(step.line[2:])
    typed = b"".join(map(repeated, lines_of(step, "<")))
    ended = subprocess.run([programs[name], *words], input=typed, capture_output=True, timeout=SECONDS, check=False)
    return Answer(ended.returncode, ended.stdout, ended.stderr)


def status_faults(step, answer):
    """Where the status is another, or something was told beside the output."""
    wanted = int((lines_of(step, "status") or ["0"])[0])
    faults = [f"status {answer.status}, wanted: {wanted}"] if answer.status != wanted else []
    return faults + ([f"told {answer.told}"] if answer.told else [])


def text_faults(step, text):
    """What is otherwise in the output."""
    begins, parts = lines_of(step, "begins"), lines_of(step, "has")
    if begins or parts:
        faults = [f"begins with {text[:80]}, wanted: {front}" for front in begins if not text.startswith(bytes_of(front))]
        return faults + [f"nowhere in the output: {part}" for part in parts if bytes_of(part) not in text]
    lines = [line for line in step.below if line.split(" ")[0] not in OTHER_WORDS]
    wanted = b"".join(repeated(line, "\n") for line in lines)
    return [f"output {text[-400:]}, wanted: {wanted[-400:]}"] if text != wanted else []


def file_faults(step, before, after):
    """Which files are otherwise than before the call, or than it is to write them."""
    faults, due = [], dict(before)
    for name, *look in map(str.split, lines_of(step, "writes")):
        due[name] = before[look[1]] if look[:1] == ["like"] else after.get(name, b"")
        if look[:1] == ["of"] and len(due[name]) != int(look[1]):
            faults.append(f"{name} has {len(due[name])} bytes, wanted: {look[1]}")
    names = sorted(set(due) | set(after))
    return faults + [f"{name} is another file than wanted" for name in names if due.get(name) != after.get(name)]


def faults_of(step, files, programs):
    """What is otherwise than a call says; `files` becomes what is there after it."""
    answer, before = call(step, programs), dict(files)
    files.clear()
    files.update(read_folder())
    return status_faults(step, answer) + text_faults(step, answer.text) + file_faults(step, before, files)


def try_block(place, name, steps, programs):
    """How many calls a block has, and how many of them ended otherwise."""
    files, calls, wrong = {}, 0, 0
    with tempfile.TemporaryDirectory() as folder:
        os.chdir(folder)
        for step in steps:
            if not step.line.startswith("$ "):
                make_file(step, files)
                continue
            faults = faults_of(step, files, programs)
            calls, wrong = calls + 1, wrong + bool(faults)
            if faults:
                print(f"{place}:{step.number}: {name}: {step.line}", *faults, sep="\n    ")
        os.chdir(TOP)
    return calls, wrong


def arguments():
    parser = argparse.ArgumentParser(description="Calls the built programs as the rows of tests/rows say.")
    for name in NAMES:
        built = os.environ.get("ROWS_" + name.upper()) or os.path.join(TOP, "crates", name, "out", name)
        parser.add_argument("--" + name, default=built, help=f"the program {name}; ROWS_{name.upper()}, or the built one")
    parser.add_argument("files", nargs="*", help="files of rows; those of tests/rows if none is named")
    return parser.parse_args()


def main():
    given, rows = arguments(), os.path.join(HERE, "rows")
    programs = {name: os.path.abspath(getattr(given, name)) for name in NAMES}
    missing = [name for name in NAMES if not os.access(programs[name], os.X_OK)]
    if missing:
        print(*(f"left out: the rows of whole calls, since {NotBuilt(name)}" for name in missing), sep="\n")
        return
    paths = [os.path.abspath(path) for path in given.files] or sorted(os.path.join(rows, name) for name in os.listdir(rows))
    tried = [try_block(os.path.relpath(path, TOP), *block, programs) for path in paths for block in read_blocks(path)]
    calls, wrong = sum(calls for calls, _ in tried), sum(wrong for _, wrong in tried)
    print(f"{calls} calls, {wrong} other than wanted")
    sys.exit(1 if wrong or not calls else 0)


if __name__ == "__main__":
    main()
