"""Tables, and a program that answers about them what is written here by hand, for tests without a built
program."""

import os

TEXT = """# The last line decides the step to c8.
freezer 1
group white 1 K:b6
group white 1 R:h1,h8
group black 1 K:a8,b8
exit unknown if on:black:K:c7
exit black holds if on:black:K:c8
"""
BACK = """freezer 1
group white 1 K:b6
group white 1 R:all
group black 1 K:c8,d7
exit draw if count:white:R:0
"""
START = "1k6/8/1K6/8/8/8/8/7R b - - 0 1"
ASIDE = "2k5/8/1K6/8/8/8/8/7R w - - 0 1"
CHECKED = "2k4R/8/1K6/8/8/8/8/8 b - - 0 1"
AWAY = "7R/3k4/1K6/8/8/8/8/8 w - - 0 1"
BESIDE = "2k5/8/1K6/8/8/8/7R/8 b - - 0 1"
CORNER = "k7/8/1K6/8/8/8/8/7R w - - 0 1"
MATED = "k6R/8/1K6/8/8/8/8/8 b - - 0 1"
UP = "k7/8/1K6/8/8/8/7R/8 b - - 0 1"
# What the program says, by its words; names of files without their folder.
ANSWERS = {
    f"sans {START}": "Ka8 Kc8\n",
    f"moves {START}": "b8a8 b8c8\n",
    f"move {START} Ka8": f"b8a8\n{CORNER}\n",
    f"move {START} Kc8": f"b8c8\n{ASIDE}\n",
    f"sans {ASIDE}": "Rh8+ Rh2\n",
    f"moves {ASIDE}": "h1h8 h1h2\n",
    f"move {ASIDE} Rh8+": f"h1h8\n{CHECKED}\n",
    f"move {ASIDE} Rh2": f"h1h2\n{BESIDE}\n",
    f"sans {CHECKED}": "Kd7\n",
    f"moves {CHECKED}": "c8d7\n",
    f"move {CHECKED} Kd7": f"c8d7\n{AWAY}\n",
    f"sans {CORNER}": "Rh8# Rh2\n",
    f"moves {CORNER}": "h1h8 h1h2\n",
    f"move {CORNER} Rh8#": f"h1h8\n{MATED}\n",
    f"move {CORNER} Rh2": f"h1h2\n{UP}\n",
    f"sans {UP}": "Kb8\n",
    f"moves {UP}": "a8b8\n",
    f"move {UP} Kb8": "a8b8\n1k6/8/1K6/8/8/8/7R/8 w - - 0 1\n",
    f"query over.t {START}": "white wins within 1\nblack none\n",
    f"query over.t {CORNER}": "white holds\nblack none\n",
    f"query over.t {ASIDE}": (7, "outside\n"),
    f"query over.t {AWAY}": (7, "outside\n"),
    f"query over.t {MATED}": "white wins within 0\nblack none\n",
    f"query back.t {ASIDE}": "white wins within 5\nblack none\n",
    f"query back.t {AWAY}": "white none\nblack holds\n",
    f"query other.t {CORNER}": "white none\nblack holds\n",
    f"query other.t {MATED}": "white wins within 0\nblack none\n",
    f"query other.t {UP}": "white none\nblack holds\n",
    f"query over.t {UP}": "white holds\nblack none\n",
    f"chainquery chained.t {START}": "white none\nblack none\n",
    "query over.t x": (4, "fen: fields\n"),
    f"line over.t {START} white back.t":
        "white wins within 1\nb8c8\nexit white wins\nback 1\nwhite wins within 5\nh1h8\nc8d7\ncut\n",
    f"line over.t {START} black back.t": (7, "no bound\n"),
    f"line back.t {ASIDE} white": (6, "white wins within 5\nh1h8\nwrong white 7 kept 4 given 6\n"),
    f"why over.t {START} white back.t": "white wins within 1\n",
    f"why over.t {START} black back.t": f"black none\nb8c8\nexit black holds\n{ASIDE}\nline 7\n",
    f"why over.t {CORNER} white back.t": "white holds\nh1h8\nh1h2 a8b8\n",
    f"why over.t {CORNER} black back.t": "black none\nh1h8\nmate\n",
    f"why over.t {UP} white back.t":
        "white holds\na8b8\nblack none\na8b8\nexit unknown\n"
        "1k6/8/1K6/8/8/8/7R/8 w - - 0 1\nno line\nwanted black K:b8\n",
    f"why over.t {MATED} black back.t": "black none\nmate\n",
    f"why back.t {ASIDE} white": "white none\nrenounced\n",
    f"why back.t {ASIDE} black": f"black none\nh1h8\nc8d7\nexit draw\n{AWAY}\nback 1\n",
    f"why back.t {AWAY} black": "black holds\nwrong black 3 kept 1 given 3\n",
    f"why back.t {AWAY} white": f"white none\nexit unknown\n{AWAY}\nno line\n",
    "premises back.t": "back 1\nline 5 true by the men\nrules\nline 6 asks nothing\n"
        f"line 7 believed {ASIDE}\nbelieved 1\nwhite true if believed\nblack true if believed\n",
}
# The words that name a file lose its folder; premises shows that the text of TABLE came too.
PROGRAM = """#!/bin/sh
words=
for word; do
    case "$word" in /*) word=${{word##*/}} ;; esac
    words="$words $word"
done
if [ "$1" = premises ]; then
    cmp -s "$2" '{text}' || exit 3
    words=" premises ${{words#* * * }}"
    sleep 0.3
fi
if [ "$1" = ask ]; then
    echo begun >> '{begun}'
    while read -r line; do "$0" "asked${{words# ask}} $line"; done
    exit 0
fi
case "${{words# }}" in
{cases}
*) echo "words: $words"; exit 2 ;;
esac
"""


def table_file(folder, name, magic, text):
    """A table of one number, without a code that anybody would read."""
    content = magic + len(text).to_bytes(4, "little") + text.encode() + (1).to_bytes(4, "little") + bytes(8)
    return written(folder, name, content)


def written(folder, name, content):
    path = os.path.join(folder, name)
    with open(path, "wb") as file:
        file.write(content)
    return path


def program(folder, answers=None):
    """The program in this folder. It answers these words, or those above; `ask` answers a line as the word of
    the tables and this line, and notes in the file `begun` that it was called."""
    cases = []
    for words, answer in (answers or ANSWERS).items():
        status, text = answer if isinstance(answer, tuple) else (0, answer)
        cases.append(f"'{words}') printf '%s' '{text}'; exit {status} ;;")
    text = written(folder, "text", TEXT.encode())
    path = written(folder, "program", PROGRAM.format(text=text, begun=os.path.join(folder, "begun"), cases="\n".join(cases)).encode())
    os.chmod(path, 0o700)
    return path
