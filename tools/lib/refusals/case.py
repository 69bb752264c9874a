"""One call of a program with the answer that a page promises, and how the program is held to it."""

import os
import shutil
import subprocess
import tempfile
import tty
from dataclasses import dataclass, field

FULL, NOT_WRITTEN = "/dev/full", 9
# No call takes longer; one that does is stuck.
SECONDS = 120


@dataclass(frozen=True)
class Case:
    """A call, and what a page says of it."""

    program: str
    # Texts; bytes where a word is no text.
    words: tuple
    # By name: the bytes of a file, None for a folder, a text for what a link leads to.
    files: dict
    status: int
    # None where the page does not say all of it.
    text: str
    # The sentence of the page, in a few words.
    says: str
    # What standard input holds; None for one that cannot be read.
    given: bytes = b""
    # How much of it is read, where a page says so.
    taken: int = None
    # The input comes through a pipe, and not from a file.
    piped: bool = False
    # The input fails where it ends.
    failing: bool = False
    # What may be neither read nor written, "." for the folder itself: nothing may be made there.
    closed: tuple = ()
    # What is there afterwards, beside the files before.
    made: dict = field(default_factory=dict)


def furnish(folder, files):
    """Puts files, folders and links into the folder."""
    for name, content in files.items():
        path = os.path.join(folder, name)
        if content is None:
            os.mkdir(path)
        elif isinstance(content, str):
            os.symlink(content, path)
        else:
            with open(path, "wb") as file:
                file.write(content)


def held(folder):
    """What the folder holds, in the form of `Case.files`."""
    found = {}
    for entry in os.scandir(folder):
        if entry.is_symlink():
            found[entry.name] = os.readlink(entry.path)
        elif entry.is_dir():
            found[entry.name] = None
        else:
            with open(entry.path, "rb") as file:
                found[entry.name] = file.read()
    return found


def input_of(case):
    """An open file from which the call reads."""
    if case.given is None:
        return os.open("/", os.O_RDONLY)
    if case.failing:
        return failing_input(case.given)
    if case.given == b"":
        return os.open(os.devnull, os.O_RDONLY)
    with tempfile.NamedTemporaryFile() as file:
        file.write(case.given)
        file.flush()
        return os.open(file.name, os.O_RDONLY)


def failing_input(content):
    """One end of a terminal. The other has written this and is gone, so that a read behind it fails."""
    ours, other = os.openpty()
    tty.setraw(other)
    os.write(other, content)
    os.close(other)
    return ours


def set_modes(folder, names, is_closed):
    """Takes the rights of these names, or gives them back."""
    for name in names:
        right = (0o500, 0o700) if name == "." else (0, 0o600)
        os.chmod(os.path.join(folder, name), right[not is_closed])


class Caller:
    """Makes the calls, counts them, and keeps the differences."""

    def __init__(self, programs, differences):
        self.programs, self.differences = programs, differences
        self.calls = dict.fromkeys(programs, 0)

    def call(self, case, folder, into=subprocess.PIPE):
        """The status, the text, and how much of the input was taken."""
        self.calls[case.program] += 1
        words = [self.programs[case.program], *case.words]
        common = {"cwd": folder, "stdout": into, "stderr": subprocess.PIPE, "timeout": SECONDS}
        try:
            if case.piped:
                done = subprocess.run(words, input=case.given, check=False, **common)
                return done.returncode, done.stdout, None
            source = input_of(case)
            try:
                done = subprocess.run(words, stdin=source, check=False, **common)
                at = os.lseek(source, 0, os.SEEK_CUR) if case.taken is not None else None
            finally:
                os.close(source)
            return done.returncode, done.stdout, at
        except subprocess.TimeoutExpired:
            return None, b"(stuck)", None

    def compare(self, case):
        """Holds one call against its page."""
        folder = tempfile.mkdtemp()
        try:
            furnish(folder, case.files)
            set_modes(folder, case.closed, True)
            status, text, taken = self.call(case, folder)
            set_modes(folder, case.closed, False)
            self.tell(case, status, text)
            if case.taken is not None and taken != case.taken:
                self.add(case, f"read of the input: {taken} bytes, by the page {case.taken}")
            after, due = held(folder), {**case.files, **case.made}
            if after != due:
                others = sorted(n for n in {*after, *due} if after.get(n, 0) != due.get(n, 0))
                self.add(case, f"other files than by the page: {', '.join(others)}")
        finally:
            shutil.rmtree(folder)

    def tell(self, case, status, text):
        given = (status, text.decode("latin-1"))
        wanted = (case.status, given[1] if case.text is None else case.text)
        if given != wanted:
            self.add(case, f"program: {shortened(given)}", f"page:    {shortened(wanted)}")

    def into_full(self, case):
        """The same call with an output that takes nothing: status 9, where there is a text to write."""
        folder = tempfile.mkdtemp()
        try:
            furnish(folder, case.files)
            with open(FULL, "wb") as full:
                status, _, _ = self.call(case, folder, full)
            wanted = case.status if case.text == "" else NOT_WRITTEN
            if status != wanted:
                self.add(case, f"into a full output: status {status}, by the page {wanted}")
        finally:
            shutil.rmtree(folder)

    def add(self, case, *lines):
        words = " ".join(repr(word)[:120] for word in case.words)
        self.differences.add(f"{case.program} {words}", case.says, *lines)


def shortened(given):
    status, text = given
    return (status, text) if len(text) < 400 else (status, f"{text[:100]} .. {text[-200:]}")
