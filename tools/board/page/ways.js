// The ways of a side from the position that is shown: its best line, and why it does not win. Their moves are
// put into the game behind that position.
import { ask, at, makeButton, shown } from "./ask.js";
import { pointAt } from "./rules.js";

const SIDES = ["white", "black"];
const BUSY = 200; // milliseconds after which the page says that it waits
const told = { asked: 0, rowsAt: null };

function say(text) {
  at("way-said").textContent = text;
}

// Forgets the way that was told.
export function clearWay() {
  told.asked += 1;
  say("");
  showRows([], null);
  pointAt(0, 0);
}

// A way from the position that is shown; nothing where something else was asked meanwhile.
async function askWay(game, name, side) {
  clearWay();
  const { fen } = game.position();
  const question = told.asked;
  const waiting = setTimeout(() => say("asking .."), BUSY);
  const way = await ask(name, { fen, side }).finally(() => clearTimeout(waiting));
  if (question !== told.asked) return null;
  if (game.position().fen === fen) return way;
  say("");
  return null;
}

function inPlies(count) {
  return count === 1 ? "1 ply" : `${count} plies`;
}

function saidOfStage({ bound, plies, end, table }, place) {
  return `${place ? `by ${table} ` : ""}${bound}; ${inPlies(plies)}, then ${end}`;
}

const bestLine = shown(async (game, side) => {
  const way = await askWay(game, "line", side);
  if (!way) return;
  say(way.refused ?? way.stages.map(saidOfStage).join("; "));
  if (way.steps?.length) game.put(way.steps);
});

// Who decided the exit at the end of a way.
function saidOfEnd({ words, by, text, table, wanted }) {
  if (words === "renounced") return "all moves that are left are renounced";
  if (text !== undefined) return `${words}, by ${by}: ${text}`;
  if (table !== undefined) return `${words}, by ${table}, a table behind`;
  const lacks = wanted ? `; the text lacks ${wanted.join(", or ")}` : "";
  return by ? `${words}: ${by} says what it is worth${lacks}` : words;
}

// What is said of the last row, the way on which the opponent does not get what he hopes for.
function saidOfOther(other) {
  return other ? `; ${other.bound} by the last one, then ${saidOfEnd(other.end)}` : "";
}

function saidOfWhy({ bound, kind, side, steps, rows, end, other }, turn) {
  if (kind === "none") return `${bound}; ${inPlies(steps.length)}, then ${saidOfEnd(end)}`;
  if (kind !== "hold") return `${bound}: nothing keeps it from that`;
  if (end.words || !rows.length) return `${bound}; ${end.words || "no move is left"}${saidOfOther(other)}`;
  const each = turn === side ? "each move, and the first reply" : "the replies";
  return `${bound}; ${each} after which ${side} has no win${saidOfOther(other)}`;
}

function rowItem(row, play) {
  const item = document.createElement("li");
  item.append(makeButton(row.map((step) => step.san).join(" "), "reply", () => play(row)));
  return item;
}

function showRows(rows, fen, play) {
  told.rowsAt = fen;
  at("way-rows").hidden = !rows.length;
  at("way-rows").replaceChildren(...rows.map((row) => rowItem(row, play)));
}

const why = shown(async (game, side) => {
  const way = await askWay(game, "why", side);
  if (!way) return;
  say(way.refused ?? saidOfWhy(way, game.position().turn));
  const last = way.other?.steps.length ? [way.other.steps] : [];
  if (way.rows) showRows([...way.rows, ...last], way.fen, game.play);
  if (way.steps?.length) game.put(way.steps.map((step, at) => ({ ...step, last: at + 1 === way.steps.length })));
  if (way.end?.line) pointAt(way.end.place, way.end.line);
});

// Shows which ways of a side are told at a position, and the rows that belong to it.
export function showWays(position, tells) {
  SIDES.forEach((side, place) => {
    at(`line-${side}`).disabled = !tells;
    at(`why-${side}`).disabled = !tells || position.bounds[place].kind === "win";
  });
  at("way-rows").hidden = told.rowsAt !== position.fen;
}

// Listens to the buttons. `position` gives the one that is shown, `put` puts steps behind it, and `play` goes
// to the last of them too.
export function listenToWays(game) {
  for (const side of SIDES) {
    at(`line-${side}`).addEventListener("click", () => bestLine(game, side));
    at(`why-${side}`).addEventListener("click", () => why(game, side));
  }
}
