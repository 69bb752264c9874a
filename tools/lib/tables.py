"""Table files read from docs/users/formats.md: their bytes, and how they are opened."""

import struct
from collections import namedtuple

from lib.game import SIDES
from lib.rules import LONGEST_TEXT, Refused, read_rules, size_of

MAGIC, CHAINED, LEANING = b"FREEZER2", b"FREEZERC", b"FREEZERB"
FORMER, OLDER = b"FREEZER1", b"FREEZERA"  # former tables of `freezer`, older ones of `atlas`
HEAD = 16

Table = namedtuple("Table", "text rules codes")


class NoTable(Exception):
    """The cause why bytes are no table."""


def file_of(magic, rules, size, entries):
    """The bytes of a file with these fields, whatever they say of each other."""
    return (
        magic + struct.pack("<I", len(rules)) + rules
        + struct.pack("<I", size) + struct.pack(f"<{len(entries)}I", *entries)
    )


def table_file(text, codes, magic=MAGIC):
    """The bytes of the file with this text and these codes of the two sides."""
    entries = [code for side in SIDES for code in codes[side]]
    return file_of(magic, text.encode("latin-1"), len(entries) // 2, entries)


def number_in(content, place):
    return int.from_bytes(content[place:place + 4], "little")


def due_length(content, due):
    """Refuses bytes that are fewer."""
    if len(content) < due:
        raise NoTable(f"truncated {len(content)} due {due}")


def open_table(content, read=read_rules, magic=MAGIC):
    """The table in these bytes, by the steps of opening in their order; or NoTable."""
    due_length(content, HEAD)
    if content[:8] != magic:
        raise NoTable("magic")
    length = number_in(content, 8)
    if length > LONGEST_TEXT:
        raise NoTable("rules 0: too long")
    due_length(content, HEAD + length)
    text = content[12:12 + length].decode("latin-1")
    try:
        rules = read(text)
    except Refused as refused:
        raise NoTable("rules {}: {}".format(*refused.args)) from refused
    size, kept = size_of(rules.groups), number_in(content, 12 + length)
    if kept != size:
        raise NoTable(f"size {kept} due {size}")
    due = HEAD + length + 8 * size
    due_length(content, due)
    if len(content) > due:
        raise NoTable(f"extra {len(content)} due {due}")
    entries = struct.unpack(f"<{2 * size}I", content[HEAD + length:])
    return Table(text, rules, {"white": entries[:size], "black": entries[size:]})
