"""Calls of the proved programs, and the codes of their tables, read by docs/users/formats.md."""

from __future__ import annotations

import mmap
import os
import resource
import struct
import subprocess
import time
from dataclasses import dataclass, field, replace

from proving.proof import Programs

HEAD, CODE = 16, 4
OUT_OF_TIME = (-9, -24)  # statuses of a program that the limit of its processor time has ended
SIDES = "wb"
# Does `atlas` ask the lines behind `exit unknown if always` where no table behind has the position, and does it count
# the plies of wins in these tables?
ASKED_LAST = True


class OutOfTime(Exception):
    """The budget's processor time is used up."""


class ProgramFailed(Exception):
    """A program ended with another status than 0: its words and its answer."""

    def __init__(self, said: str, status: int):
        super().__init__(said)
        self.status = status if status > 0 else 128 - status


def is_win(code: int) -> bool:
    return code > 0 and code % 2 == 0


HOLD = 1


def is_safe(code: int) -> bool:
    """Whether the side holds or wins."""
    return code == HOLD or is_win(code)


class Table:
    """A table file that is there: the codes of both sides by number."""

    def __init__(self, path: str):
        self.path = path
        with open(path, "rb") as file:
            self.content = mmap.mmap(file.fileno(), 0, access=mmap.ACCESS_READ)
        length, = struct.unpack_from("<I", self.content, 8)
        self.size, = struct.unpack_from("<I", self.content, 12 + length)
        self.first = HEAD + length

    def code(self, side: str, number: int) -> int:
        place = self.first + CODE * (number + self.size * SIDES.index(side))
        return struct.unpack_from("<I", self.content, place)[0]

    def close(self) -> None:
        self.content.close()


@dataclass
class Spent:
    """What the calls took: processor seconds, and numbers built and checked."""

    seconds: float = 0.0
    built: int = 0
    checked: int = 0
    calls: int = 0


@dataclass
class Workshop:
    """Builds tables in a folder, and counts what it takes."""

    programs: Programs
    folder: str
    until: float = float("inf")  # processor seconds, as `used` counts them
    spent: Spent = field(default_factory=Spent)
    began: float = field(default_factory=lambda: used())

    def taken(self) -> float:
        """Processor seconds since the search began, its own and the programs'."""
        return used() - self.began

    def left(self) -> float:
        return self.until - used()

    @property
    def home(self) -> str:
        return self.folder

    def at(self, folder: str) -> Workshop:
        """The same workshop in another folder."""
        return replace(self, folder=folder)

    def build(self, name: str, text: str, backs: list[Table]) -> Table:
        """The table of the text over the tables behind it. The text lies beside it. Both replace what was there when
        they are whole: an earlier table is still read, and the call may be cut off."""
        path = os.path.join(self.folder, f"{name}.t")
        rules = os.path.join(self.folder, f"{name}.txt")
        write_text(f"{rules}.new", text)
        program = self.programs.atlas if backs else self.programs.freezer
        self.run(program, "build", f"{rules}.new", f"{path}.new", *[back.path for back in backs])
        os.replace(f"{rules}.new", rules)
        os.replace(f"{path}.new", path)
        table = Table(path)
        self.spent.built += table.size
        self.spent.checked += sum(back.size for back in backs)
        return table

    def run(self, program: str, *words: str) -> str:
        if self.left() <= 0:
            raise OutOfTime
        ceiling = int(min(self.left(), 10 ** 6)) + 2
        before = used()
        done = subprocess.run(
            [program, *words], stdout=subprocess.PIPE, stderr=subprocess.PIPE, text=True, check=False,
            preexec_fn=lambda: resource.setrlimit(resource.RLIMIT_CPU, (ceiling, ceiling)),
        )
        self.spent.calls += 1
        self.spent.seconds += used() - before
        if done.returncode in OUT_OF_TIME:
            raise OutOfTime
        if done.returncode != 0:
            said = f"{os.path.basename(program)} {' '.join(words)}: {done.stdout.strip()} {done.stderr.strip()}"
            raise ProgramFailed(said.strip(), done.returncode)
        return done.stdout


def used() -> float:
    """The processor seconds of this process and of those that it has waited for."""
    children = resource.getrusage(resource.RUSAGE_CHILDREN)
    return time.process_time() + children.ru_utime + children.ru_stime


def write_text(path: str, text: str) -> None:
    """Replaces the file at once, so that no half of a text is ever left."""
    with open(path + ".part", "w", encoding="ascii") as file:
        file.write(text)
    os.replace(path + ".part", path)
