// What the exit lines of the texts rest on, marked behind each, and what the bounds then are in chess.
import { at, make, makeButton } from "./ask.js";
import { followCourse } from "./course.js";
import { clearMarks, markLine } from "./rules.js";

const told = { open: null, look: null };
// What a line about a side says, in words.
const MEANINGS = {
  exact: "the value of chess, with the plies of the quickest mate",
  "exact but for plies": "the outcome of chess; a mate may be quicker",
  "true, moves renounced": "true in chess; by moves that it renounces it may do better",
  "true, exits undecided": "true in chess; beyond the exits it may do better",
  "true if believed": "true in chess if the believed lines are",
};

function saidOf({ state, seconds, last, believed }) {
  if (state === "running") return `going over the exits, ${seconds} s`;
  if (state === "stopped") return `stopped after ${seconds} s`;
  if (state !== "done") return last;
  return believed === 0 ? "no exit line is believed" : `exit lines that are believed: ${believed}`;
}

function markOf({ words, kind, fen }) {
  if (!fen) return make("span", words, kind);
  const mark = makeButton(words, kind, () => told.open(fen));
  mark.title = `the first exit that needs it: ${fen}`;
  return mark;
}

function sideItem(line) {
  const item = make("li", "", "side");
  const meaning = MEANINGS[line.replace(/^\S+ /, "")];
  item.append(make("strong", line), ...(meaning ? [`: ${meaning}`] : []));
  return item;
}

function showPremises(premises) {
  clearMarks();
  for (const line of premises.lines) markLine(line.place, line.line, markOf(line));
  at("premises-said").textContent = saidOf(premises);
  at("premises-of").hidden = premises.of_table || !premises.sides.length;
  at("sides").replaceChildren(...premises.sides.map(sideItem));
}

// Begins to show premises; `open` shows a position.
export function beginPremises(open) {
  told.open = open;
  told.look();
}

export function listenToPremises() {
  told.look = followCourse("premises", showPremises);
}
