"""Distances to mate of Gaviota's tables, through its library and a small program in C."""

import glob
import os
import shutil
import subprocess

FOLDERS = "/usr/share/gaviotatb"
SCHEME = 4
PROBE = r"""
#include <stdio.h>
#include <gtb-probe.h>

/* For each line `turn king king kind square` of the input a line `result plies`. */
int main(int count, char **words)
{
    const char **paths = tbpaths_add(tbpaths_init(), words[1]);
    unsigned turn, king, enemy, kind, square, info, plies;
    tb_init(0, tb_CP4, paths);
    tbcache_init(1 << 24, 96);
    while (scanf("%u %u %u %u %u", &turn, &king, &enemy, &kind, &square) == 5) {
        unsigned white[] = {king, square, tb_NOSQUARE}, black[] = {enemy, tb_NOSQUARE};
        unsigned char whites[] = {tb_KING, kind, tb_NOPIECE}, blacks[] = {tb_KING, tb_NOPIECE};
        if (!tb_probe_hard(turn, tb_NOSQUARE, tb_NOCASTLE, white, black, whites, blacks,
                           &info, &plies))
            info = tb_UNKNOWN, plies = 0;
        printf("%u %u\n", info, plies);
    }
    tbcache_done();
    tb_done();
    tbpaths_done(paths);
    return 0;
}
"""
KINDS = {"P": 1, "N": 2, "B": 3, "R": 4, "Q": 5}
RESULTS = {0: "draw", 1: "white", 2: "black"}


def what_is_missing():
    """What has to be installed before the tables can be asked, or None."""
    if shutil.which("gcc") is None:
        return "gcc"
    if not os.path.exists("/usr/include/gtb-probe.h"):
        return "libgaviotatb-dev"
    if not glob.glob(f"{FOLDERS}/gtb{SCHEME}/*"):
        return "gaviotatb"
    return None


def compile_probe(folder):
    """Compiles the program that asks the library, in a folder that the caller removes."""
    source, program = os.path.join(folder, "probe.c"), os.path.join(folder, "probe")
    with open(source, "w", encoding="ascii") as file:
        file.write(PROBE)
    subprocess.run(["gcc", "-O1", "-o", program, source, "-lgaviotatb"], check=True)
    return program


def distances(program, questions):
    """For each (turn, white king, black king, kind, square) who mates, and in how many plies."""
    lines = "".join(
        f"{0 if turn == 'w' else 1} {king} {enemy} {KINDS[kind]} {square}\n"
        for turn, king, enemy, kind, square in questions
    )
    done = subprocess.run(
        [program, f"{FOLDERS}/gtb{SCHEME}"], input=lines, capture_output=True, text=True, check=True
    )
    answers = [line.split() for line in done.stdout.splitlines()]
    return [(RESULTS.get(int(result), "unknown"), int(plies)) for result, plies in answers]
