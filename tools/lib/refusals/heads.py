"""Faults of table files, by the steps in which docs/users/formats.md opens one."""

import struct
from collections import namedtuple

from lib.refusals.fixtures import A, A_BLACK, A_WHITE, MAGICS
from lib.tables import CHAINED, FORMER, OLDER

LONGEST = 65_536
# As long as A.
BAD = A.replace("group black", "gruop black")
LARGEST_TEXT = (
    "freezer 1\ngroup white 1 K:all\ngroup black 1 K:all\ngroup white 1 Q:all\ngroup black 1 Q:all\n"
    "group white 1 R:a1-a4\n"
)
# A file that is refused, and why.
Head = namedtuple("Head", "content cause step")


class Parts:
    """The parts of a file with the text A, some of them faulty."""

    def __init__(self, magic):
        self.magic, self.text, self.codes = magic, A, [*A_WHITE, *A_BLACK]
        self.length, self.size, self.cut, self.more = None, 8, None, b""

    def content(self):
        text = self.text.encode("latin-1")
        length = len(text) if self.length is None else self.length
        whole = self.magic + struct.pack("<I", length) + text + struct.pack("<I", self.size)
        whole += struct.pack(f"<{len(self.codes)}I", *self.codes) + self.more
        return whole[:self.cut]


# Each fault: the step at which it comes, what it changes, and the cause; F is the length of the file.
# The text of A has 73 bytes, so 16 + L is 89, and 16 + L + 8 * 8 is 153.
STEPS = (
    (2, {"cut": 0}, "truncated 0 due 16"),
    (2, {"cut": 1}, "truncated 1 due 16"),
    (2, {"cut": 8}, "truncated 8 due 16"),
    (2, {"cut": 15}, "truncated 15 due 16"),
    (3, {"magic": b"FREEZER3"}, "magic"),
    (3, {"magic": b"freezer2"}, "magic"),
    (3, {"magic": b"\0" * 8}, "magic"),
    (4, {"length": LONGEST + 1}, "rules 0: too long"),
    (4, {"length": 2**31}, "rules 0: too long"),
    (4, {"length": 2**32 - 1}, "rules 0: too long"),
    (5, {"cut": 16}, "truncated 16 due 89"),
    (5, {"cut": 50}, "truncated 50 due 89"),
    (5, {"cut": 88}, "truncated 88 due 89"),
    (5, {"length": LONGEST}, "truncated {F} due 65552"),
    (5, {"length": 138}, "truncated {F} due 154"),
    (6, {"text": BAD}, "rules 4: unknown line"),
    (6, {"length": 0}, "rules 0: header"),
    (7, {"size": 0}, "size 0 due 8"),
    (7, {"size": 7}, "size 7 due 8"),
    (7, {"size": 9}, "size 9 due 8"),
    (7, {"size": 2**32 - 1}, "size 4294967295 due 8"),
    (8, {"cut": 89}, "truncated 89 due 153"),
    (8, {"cut": 121}, "truncated 121 due 153"),
    (8, {"cut": 152}, "truncated 152 due 153"),
    (8, {"more": b"\0"}, "extra 154 due 153"),
    (8, {"more": b"\n" * 70_000}, "extra 70153 due 153"),
)


def made(magic, *changes):
    parts = Parts(magic)
    for change in changes:
        for name, value in change.items():
            setattr(parts, name, value)
    return parts.content()


def single_faults(magic):
    """The file with each fault alone."""
    for step, change, cause in STEPS:
        content = made(magic, change)
        yield Head(content, cause.format(F=len(content)), f"step {step}")
    # With one byte less the text has no line feed at its end and is accepted; the size is then read from
    # there on: its lowest byte is the line feed, 10, and behind it stand the 8, 0 and 0 of the true one.
    yield Head(made(magic, {"length": 72}), f"size {10 + 256 * 8} due 8", "steps 6 and 7")


def paired_faults(magic):
    """The file with two faults of different steps, of which the earlier is named."""
    for step, change, cause in STEPS:
        for later, other, _ in STEPS:
            if step >= later or set(change) & set(other):
                continue
            # A cut before the fault of another step takes it away, and so does a length that ends elsewhere.
            if "length" in change and step > 4 or "length" in other and later > 4:
                continue
            content = made(magic, change, other)
            yield Head(content, cause.format(F=len(content)), f"step {step} before {later}")


def largest(magic):
    """A head of the largest set with its right size, and no code: no length is used before it is compared."""
    text, size = LARGEST_TEXT, 2**27
    if magic == FORMER:
        text, size = text.replace("R:a1-a4", "R:a1").replace("black 1 Q:all", "black 1 Q:a1-h4"), 2**24
    content = head_file(magic, text, size)
    yield Head(content, f"truncated {len(content)} due {len(content) + 8 * size}", "step 8")


# How `atlas` names the tables that it does not read.
NAMED = {
    CHAINED: "chained, ask freezer chainquery", FORMER: "former, ask freezer migrate", OLDER: "older, build it again",
}


def other_magics(wanted, is_named):
    """The file with each of the magics that are another kind's, which `atlas` names."""
    for magic in MAGICS:
        if magic not in wanted:
            yield Head(made(magic), NAMED[magic] if is_named else "magic", "step 3")


def few_faults(magic):
    """One file for each step."""
    first = {}
    for head in single_faults(magic):
        first.setdefault(head.step, head)
    last = [head for head in single_faults(magic) if head.cause.startswith("extra")]
    return [*first.values(), last[0]]


def head_file(magic, text, size=0):
    """A file with this text and this size kept, and no code."""
    raw = text.encode("latin-1")
    return magic + struct.pack("<I", len(raw)) + raw + struct.pack("<I", size)
