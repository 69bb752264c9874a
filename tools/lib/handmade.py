"""Files written by hand in tests/rows, each by a line of its kind, a name and words, and the lines below it."""

import json

from lib.tables import file_of


def bytes_of(string):
    """The bytes of a string of JSON, whose characters they are."""
    return json.loads(string).encode("latin-1")


def text_file(files, below):
    return "".join(line + "\n" for line in below).encode("latin-1")


def bytes_file(files, below, string):
    return bytes_of(string)


def table_file(files, below, magic, text, *words):
    codes = [int(code) for line in (*words, *below) for code in line.split() if code != "size"]
    size = codes.pop(0) if words[:1] == ("size",) else len(codes) // 2
    return file_of(magic.encode(), files[text], size, codes)


def front_file(files, below, of, length):
    return files[of][:int(length)]


def longer_file(files, below, of, string):
    return files[of] + bytes_of(string)


def changed_file(files, below, of, *changes):
    content = bytearray(files[of])
    for change in changes:
        place, byte = map(int, change.split("="))
        content[place] = byte
    return bytes(content)


KINDS = {"text": text_file, "bytes": bytes_file, "table": table_file}
KINDS |= {"front": front_file, "longer": longer_file, "change": changed_file}
