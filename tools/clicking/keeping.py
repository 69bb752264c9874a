"""What an analyst keeps of the page: side lines, PGN, the address, a drawing; and two tables together."""

import os
import re
import shutil
import subprocess
import xml.etree.ElementTree as xml

from .page import PASTE, Page
from .served import TOOLS

COPIED = """const done = arguments[0];
navigator.clipboard.writeText = (text) => { done(text); return Promise.resolve(); };
document.getElementById("pgn-copy").click();"""
SAVED = """const [name, done] = arguments;
const make = URL.createObjectURL;
URL.createObjectURL = (blob) => { blob.text().then(done); URL.createObjectURL = make; return make.call(URL, blob); };
document.getElementById(name).click();"""
# A game of random moves with side lines, as PGN, and the moves of its main line by coordinates.
RANDOM = """const [start, seed, done] = arguments;
let state = seed;
const chance = (count) => { state = (state * 1103515245 + 12345) % 2147483648; return Math.floor(state / 65536) % count; };
const [{ ask }, { Tree }, { learn }, { writePgn }] = await Promise.all(
  ["ask", "tree", "game", "pgn"].map((name) => import(new URL(`${name}.js`, location.href))));
const tree = new Tree(start);
const fill = async (node, depth) => {
  const told = await ask("position", { fen: node.fen });
  learn(node, told);
  for (let side = chance(4) ? 1 : 2; told.moves.length && depth && side; side -= 1) {
    const move = told.moves[chance(told.moves.length)];
    const after = await ask("after", { fen: node.fen, san: move.san });
    await fill(tree.put(node, [{ ...after, san: move.san }]), side > 1 ? Math.min(2, depth - 1) : depth - 1);
  }
};
await fill(tree.root, 12);
const line = [];
for (let node = tree.root.chosen; node; node = node.chosen) line.push(node.move);
done([writePgn(tree.root, 'a "table" \\\\ 1'), line]);"""
START = "8/8/6k1/p1p1p3/PpP1P1K1/1P6/8/8 b - - 0 1"
PATH = os.environ["PATH"] + ":/usr/games"


def extracted(folder, pgn, checks):
    """The moves of the main line by coordinates, as pgn-extract reads them, which finds no fault."""
    path = os.path.join(folder, "game.pgn")
    with open(path, "w", encoding="utf-8") as file:
        file.write(pgn)
    words = ["pgn-extract", "-s", "-Wlalg", "-C", "-V", "-N", "--notags", "--nomovenumbers", path]
    done = subprocess.run(words, env={**os.environ, "PATH": PATH}, capture_output=True, text=True, check=False)
    checks.same("what pgn-extract says", (done.returncode, done.stderr), (0, ""))
    return done.stdout.split()[:-1]


def moves_of(page):
    """The line that is shown, as the buttons have it, by its moves alone."""
    return [re.sub(r"^\d+\.+ ", "", text) for text in page.text("#game button").split(" | ")[1:]]


def see_side_lines(page, checks):
    """Another move leaves the first as a side line, and each can be undone and removed."""
    page.show(START)
    checks.see("the position", page.has_bounds("white wins within 36 | black none"))
    checks.see("its address", page.wait(lambda: page.driver.current_url.endswith("#" + START.replace(" ", "_"))))
    page.click_move("Kf6")
    checks.see("a move", page.has_bounds("white wins within 35 | black none"))
    page.press("ARROW_LEFT")
    checks.see("back", page.has_bounds("white wins within 36 | black none"))
    page.click_move("Kh6")
    checks.see("another", page.wait(lambda: moves_of(page) == ["Kh6"]))
    checks.same("the first is kept", page.text("#branches button"), "1... Kf6")
    page.find("#branches button")[0].click()
    checks.see("and gone back to", page.wait(lambda: page.text("#branches button") == "1... Kh6"))
    page.find("#remove")[0].click()
    checks.see("removed", page.wait(lambda: page.text("#game button") == "start | 1... Kh6"))
    page.find("#undo")[0].click()
    checks.see("there again", page.wait(lambda: page.text("#branches button") == "1... Kh6"))
    page.find("#line-white")[0].click()
    checks.see("with a line behind", page.wait(lambda: len(moves_of(page)) == 36))
    page.run("location.hash = arguments[0]", START.replace(" b ", " w ").replace(" ", "_"))
    checks.see("by its address", page.has_bounds("white holds | black holds"))
    page.press("z", held="CONTROL")
    checks.see("the game again", page.wait(lambda: page.text("#branches button") == "1... Kh6"))


def see_pgn(page, folder, checks):
    """The game as PGN, copied and downloaded, and opened again."""
    pgn = page.driver.execute_async_script(COPIED)
    checks.same("downloaded", page.driver.execute_async_script(SAVED, "pgn-save"), pgn)
    checks.see("where it begins", f'[SetUp "1"]\n[FEN "{START}"]\n' in pgn)
    checks.see("a side line", "(1... Kh6" in pgn)
    begin = "{white wins: white wins within 36, black none} 1... Kf6"
    checks.see("the bounds at the beginning", begin in pgn.replace("\n", " "))
    if shutil.which("pgn-extract", path=PATH):
        checks.same("as many moves", len(extracted(folder, pgn, checks)), 36)
    else:
        print("skipped: pgn-extract is not installed (Debian's package pgn-extract)")
    moves = moves_of(page)
    page.show(START.replace(" b ", " w "))
    checks.see("another game", page.has_bounds("white holds | black holds"))
    checks.same("a draw in words", page.text("#bounds .verdict"), "draw")
    page.run(PASTE, pgn)
    checks.see("opened", page.wait(lambda: moves_of(page) == moves))
    checks.same("with its side line", page.text("#branches button"), "1... Kh6")
    checks.same("the same once more", page.driver.execute_async_script(COPIED), pgn)
    page.run(PASTE, pgn.replace("Kh6", "Kh8"))
    checks.see("a move that is none", page.wait(lambda: page.text("#refusal").startswith("Kh8: no move")))
    page.find("#undo")[0].click()
    checks.see("the game before", page.wait(lambda: page.text("#branches button") == "1... Kh6"))


def see_random_games(page, folder, checks):
    """Games of random moves with side lines, from both sides' moves."""
    if not shutil.which("pgn-extract", path=PATH):
        return
    for seed in range(1, 16):
        start = START if seed % 2 else START.replace(" b ", " w ").removesuffix(" 0 1")
        script = f"(async () => {{ {RANDOM} }})()".replace("const [start, seed, done] = arguments;", "")
        script = "const [start, seed, done] = arguments;" + script
        pgn, line = page.driver.execute_async_script(script, start, seed)
        checks.same(f"the moves of game {seed}", extracted(folder, pgn, checks), line)


def see_thrown(page, folder, checks):
    """A move that throws a win away has its sign."""
    page.show(START)
    page.has_bounds("white wins within 36 | black none")
    page.click_move("Kf6")
    page.has_bounds("white wins within 35 | black none")
    page.click_move("Kf3")
    checks.see("a win thrown away", page.wait(lambda: moves_of(page) == ["Kf6", "Kf3"]))
    pgn = page.driver.execute_async_script(COPIED).replace("\n", " ")
    thrown = r"2\. Kf3\? \{[a-z ]+: white (holds|none), black (holds|wins within \d+)\}"
    checks.see("its sign and its comment", re.search(thrown, pgn))


def see_drawing(page, checks):
    """The board as a drawing that stands by itself."""
    drawing = xml.fromstring(page.driver.execute_async_script(SAVED, "svg-save"))
    names = [part.tag.split("}")[1] for part in drawing.iter()]
    checks.same("its squares", names.count("rect"), 64)
    fills = {part.get("fill") for part in drawing.iter() if part.tag.endswith("rect")}
    checks.see("in two colours at least", len(fills) >= 2 and None not in fills)
    checks.see("the legend", page.find("#legend summary")[0].is_displayed())


def see_beside(page, checks):
    """Two tables of one position: the bounds and the moves of both, and the verdict by the better bounds."""
    checks.see("both tables", page.wait(lambda: page.text("#bounds .words").count("|") == 3))
    checks.see("whose the others are", "by other.t" in page.text("#bounds .turn"))
    checks.see("moves by both", page.wait(lambda: page.text("#moves .after").count("beside: ") == len(page.moves())))


def see_given(programs, table, checks):
    """A page that is given away, opened from its file: the verdict, the moves, and a line to click."""
    words = [os.path.join(TOOLS, "proof-page"), table, "--fen", START, "--most", "60",
             "--program", programs.freezer, "--atlas", programs.atlas]
    path = os.path.join(programs.folder, "proof.html")
    with open(path, "w", encoding="utf-8") as file:
        subprocess.run(words, stdout=file, check=True)
    page = Page(f"file://{path}", programs.folder)
    try:
        checks.see("the position", page.has_bounds_in("#bounds .bound", "white wins within 36 | black none"))
        checks.same("in words of chess", page.text("#bounds .verdict"), "white wins")
        page.click_move("Kf6")
        checks.see("a move of it", page.has_bounds_in("#bounds .bound", "white wins within 35 | black none"))
        page.press("ARROW_LEFT")
        checks.see("and back", page.has_bounds_in("#bounds .bound", "white wins within 36 | black none"))
        checks.same("nothing is asked", page.driver.get_log("browser"), [])
    finally:
        page.driver.quit()
