// The page: the game so far, the position shown, and the questions that are asked about it.
import { ask, at, make, refuse, shown } from "./ask.js";
import { drawBoard, wordsOf } from "./board.js";
import { learn, showGame } from "./game.js";
import { listenToHand } from "./hand.js";
import { isPgn, listenToKeeping } from "./keep.js";
import { showBounds, showMoves } from "./moves.js";
import { beginPremises, listenToPremises } from "./premises.js";
import { beginReport, listenToReport, turnReport } from "./report.js";
import { showText } from "./rules.js";
import { Tree } from "./tree.js";
import { clearWay, listenToWays, showWays } from "./ways.js";

// `tree` has the game, and in it the place that is shown; `going` is the one that is asked for.
const state = { tree: null, going: null, turned: false, position: null, picked: null, told: null, asked: 0 };
const BUSY = 200; // milliseconds after which the page says that it waits
const PACE = 900; // milliseconds between two moves that are played on

function tableShown() {
  return state.told.tables[state.position.table ?? 0];
}

function movesFrom(square) {
  return state.position.moves.filter((move) => move.move.startsWith(square));
}

function marksOf() {
  const marks = {};
  const text = state.tree.here.move;
  if (text) marks[text.slice(0, 2)] = marks[text.slice(2, 4)] = "last";
  if (state.picked) {
    for (const move of movesFrom(state.picked)) marks[move.move.slice(2, 4)] = "target";
    marks[state.picked.slice(0, 2)] = "picked";
  }
  return marks;
}

function showBoard() {
  const { fen } = state.position;
  drawBoard(at("board"), fen, { turned: state.turned, fast: tableShown().fast, marks: marksOf() });
  at("board").setAttribute("aria-label", wordsOf(fen));
}

// Shows the moves; who chose one of them by its key can go on from the best of the next ones.
function listMoves() {
  const inside = at("moves").contains(document.activeElement);
  showMoves(state.picked ? movesFrom(state.picked) : state.position.moves, play);
  if (inside) (at("moves").querySelector("button") ?? at("back")).focus();
}

function show() {
  const { position } = state;
  showBoard();
  showBounds(position, position.table ? tableShown().name : "");
  listMoves();
  showGame(state.tree, go);
  history.replaceState(null, "", `#${position.fen.replaceAll(" ", "_")}`);
  showWays(position, position.table !== null && tableShown().ways);
  if (document.activeElement !== at("fen")) at("fen").value = position.fen;
}

// The answer to a question about a position, or nothing where a later question was asked meanwhile.
async function askPosition(words) {
  const question = ++state.asked;
  const waiting = setTimeout(() => at("moves").setAttribute("aria-busy", "true"), BUSY);
  try {
    const position = await ask("position", words);
    if (position.age !== undefined && position.age !== state.told.age) await tell();
    return question === state.asked ? position : null;
  } finally {
    clearTimeout(waiting);
    at("moves").removeAttribute("aria-busy");
  }
}

// Shows a place of a game by the answer about it. Where it is refused, nothing changes.
function arrive(position, tree, node) {
  refuse(position.refused ?? "");
  if (position.refused !== undefined) {
    state.going = state.tree?.here ?? null;
    playOn(false);
    return;
  }
  if (tree !== state.tree) tree.former = state.tree;
  learn(node, position);
  tree.go(node);
  Object.assign(state, { tree, going: node, position, picked: null });
  show();
}

const go = shown(async (node, tree = state.tree) => {
  if (!node) return;
  state.going = node;
  const position = await askPosition({ fen: node.fen });
  if (position) arrive(position, tree, node);
});

// Goes so many places on in the line that is shown, or back.
function step(places) {
  const line = state.tree.line();
  return go(line[line.indexOf(state.going) + places]);
}

const play = shown(async (move) => {
  const { tree } = state;
  const { here } = tree;
  const position = await askPosition({ fen: here.fen, san: move.san });
  if (!position) return;
  clearWay();
  if (position.refused !== undefined) arrive(position, tree, here);
  else arrive(position, tree, tree.put(here, [{ fen: position.fen, san: move.san, move: move.move }]));
});

function open(fen) {
  clearWay();
  const tree = new Tree(fen);
  return go(tree.root, tree);
}

// Undoes what was done to the game last: moves that came to it, a line that was removed, or another game.
function undo() {
  const { tree } = state;
  clearWay();
  if (tree.done.length) {
    tree.done.pop()();
    go(tree.here);
  } else if (tree.former) {
    const { former } = tree;
    state.tree = former;
    go(former.here, former);
  }
}

function remove() {
  clearWay();
  state.tree.remove();
  go(state.tree.here);
}

function pick(square) {
  state.picked = square;
  showBoard();
  listMoves();
}

// Lays the picked man on a square. Where it may become several men there, the list asks which.
function lay(square) {
  const found = square ? movesFrom(state.picked + square) : [];
  if (found.length === 1) return play(found[0]);
  pick(found.length > 1 ? state.picked + square : null);
  if (found.length > 1) at("moves").querySelector("button").focus();
}

// Puts steps behind the position that is shown; gives back the last of them.
function put(steps) {
  const last = state.tree.put(state.tree.here, steps);
  showGame(state.tree, go);
  return last;
}

// Plays on through the game, a move at a time, until it ends or is told to stop.
function playOn(wanted = at("on").getAttribute("aria-pressed") !== "true") {
  clearInterval(state.playing);
  const more = () => state.going !== state.tree.line().at(-1);
  const plays = wanted && more();
  at("on").setAttribute("aria-pressed", String(plays));
  if (!plays) return;
  step(1);
  state.playing = setInterval(() => (more() ? step(1) : playOn(false)), PACE);
}

function flip() {
  state.turned = !state.turned;
  if (state.position) showBoard();
  turnReport();
}

// Moves the choice among the moves by so many places.
function choose(places) {
  const buttons = [...at("moves").querySelectorAll("button")];
  const now = buttons.indexOf(document.activeElement);
  const next = now < 0 ? (places > 0 ? 0 : buttons.length - 1) : now + places;
  buttons[Math.max(0, Math.min(buttons.length - 1, next))]?.focus();
}

const KEYS = {
  ArrowLeft: () => step(-1),
  ArrowRight: () => step(1),
  ArrowUp: () => choose(-1),
  ArrowDown: () => choose(1),
  Escape: () => pick(null),
  p: () => playOn(),
  f: flip,
};

function onKey(event) {
  if (event.key === "z" && (event.ctrlKey || event.metaKey) && !event.target.closest("input") && state.tree) {
    event.preventDefault();
    undo();
  }
  if (event.target.closest("input") || event.ctrlKey || event.altKey || event.metaKey) return;
  if (!KEYS[event.key] || !state.position) return;
  event.preventDefault();
  if (event.key !== "p") playOn(false);
  KEYS[event.key]();
}

function onCopy(event) {
  if (event.target.closest?.("input") || !getSelection().isCollapsed || !state.position) return;
  event.clipboardData.setData("text/plain", state.position.fen);
  event.preventDefault();
}

function onPaste(event) {
  if (event.target.closest?.("input") || !event.clipboardData.getData("text/plain")) return;
  const text = event.clipboardData.getData("text/plain").trim();
  if (isPgn(text)) openGame(text);
  else open(text.slice(0, 200));
}

// Opens a PGN; it is what listens to the buttons about it that can.
let openGame = null;

function fenOfAddress() {
  return decodeURIComponent(location.hash.slice(1)).replaceAll("_", " ").slice(0, 200);
}

function listen() {
  openGame = listenToKeeping({
    tree: () => state.tree,
    name: () => state.told.tables[0].name,
    replace: (tree) => {
      clearWay();
      return go(tree.root, tree);
    },
  });
  at("undo").addEventListener("click", undo);
  at("remove").addEventListener("click", remove);
  addEventListener("hashchange", () => {
    if (fenOfAddress() !== state.position?.fen) open(fenOfAddress());
  });
  listenToHand(at("board"), {
    canPick: (square) => movesFrom(square).length > 0,
    picked: () => state.picked?.slice(0, 2) ?? null,
    pick,
    lay,
  });
  at("fen-form").addEventListener("submit", (event) => {
    event.preventDefault();
    open(at("fen").value.trim());
  });
  at("copy").addEventListener("click", () => navigator.clipboard.writeText(state.position.fen).catch(() => at("fen").select()));
  at("flip").addEventListener("click", flip);
  at("back").addEventListener("click", () => step(-1));
  at("forth").addEventListener("click", () => step(1));
  at("on").addEventListener("click", () => playOn());
  document.addEventListener("keydown", onKey);
  document.addEventListener("copy", onCopy);
  document.addEventListener("paste", onPaste);
  document.addEventListener("pointerdown", (event) => event.target.closest("#on") || playOn(false));
  listenToWays({
    position: () => state.position,
    put,
    play: (steps) => go(put(steps)),
  });
}

const KINDS = { plain: "a table", chained: "a chained table", leaning: "a table over others" };

function rulesOf(back, place) {
  const details = document.createElement("details");
  const text = document.createElement("pre");
  details.append(make("summary", `Rules text of ${back.name}, ${back.size} numbers`), text);
  showText(text, place + 1, back.text);
  return details;
}

// Asks for the tables, and shows their rules texts.
async function tell() {
  state.told = await ask("tables");
  const [table, ...backs] = state.told.tables;
  document.title = at("title").textContent = table.name;
  at("table-said").textContent = `${KINDS[table.kind]} of ${table.size} numbers`;
  showText(at("rules"), 0, table.text);
  at("behind").replaceChildren(...[...backs, ...state.told.beside].map(rulesOf));
  beginPremises(open);
  beginReport(table.size, open, () => state.turned);
}

const begin = shown(async () => {
  listenToPremises();
  listenToReport();
  await tell();
  listen();
  const first = fenOfAddress() || state.told.start;
  if (first) await open(first);
  else refuse("type a FEN to begin");
});

begin();
