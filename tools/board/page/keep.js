// What an analyst keeps of the page, and brings to it: the game with its side lines as PGN, and the board as a
// drawing.
import { ask, at, refuse, shown } from "./ask.js";
import { learn } from "./game.js";
import { readPgn, writePgn } from "./pgn.js";
import { download, drawingOf } from "./save.js";
import { Tree } from "./tree.js";

function* nodesOf(node) {
  yield node;
  for (const child of node.children) yield* nodesOf(child);
}

// The PGN of the game, by what is said of each of its positions now.
async function pgnOf(page) {
  const { root } = page.tree();
  for (const node of nodesOf(root)) {
    learn(node, await ask("position", { fen: node.fen }));
  }
  return writePgn(root, page.name());
}

// Puts a list of moves behind a position, each with those tried instead of it. The first that is refused ends
// the list; gives back what is wrong with it, or nothing.
async function putMoves(tree, node, moves) {
  let wrong = "";
  for (const { san, sides } of moves) {
    for (const side of sides) {
      const fault = await putMoves(tree, node, side);
      wrong ||= fault;
    }
    const told = await ask("after", { fen: node.fen, san });
    if (told.refused !== undefined) return wrong || `${san}: ${told.refused}; the moves before it are here`;
    node = tree.put(node, [{ ...told, san }]);
  }
  return wrong;
}

// Opens a PGN at its first position. The server's notation replaces that of the file.
async function openPgn(page, text) {
  const { fen, moves } = readPgn(text);
  const begin = await ask("position", { fen });
  if (begin.refused !== undefined) {
    refuse(begin.refused);
    return;
  }
  const tree = new Tree(fen);
  const wrong = await putMoves(tree, tree.root, moves);
  tree.done = [];
  await page.replace(tree);
  if (wrong) refuse(wrong);
}

export function isPgn(text) {
  return /^\s*\[\w+\s+"/m.test(text) || /^\s*1\.+\s*\S/.test(text);
}

// Listens to the buttons. `tree` gives the game, `name` its table's name, and `replace` shows another game.
export function listenToKeeping(page) {
  const name = () => page.name().replace(/[^\w.-]+/g, "_");
  const copy = shown(async () => navigator.clipboard.writeText(await pgnOf(page)));
  at("pgn-copy").addEventListener("click", () => copy());
  const save = shown(async () => download(`${name()}.pgn`, "application/x-chess-pgn", await pgnOf(page)));
  at("pgn-save").addEventListener("click", () => save());
  at("svg-save").addEventListener("click", () => download(`${name()}.svg`, "image/svg+xml", drawingOf(at("board"))));
  const openFile = shown(async (file) => openPgn(page, await file.text()));
  at("pgn-open").addEventListener("click", () => at("pgn-file").click());
  at("pgn-file").addEventListener("change", (event) => {
    if (event.target.files[0]) openFile(event.target.files[0]);
    event.target.value = "";
  });
  return shown((text) => openPgn(page, text));
}
