// The report: the mutual zugzwangs as small boards, and the open exits.
import { at, make, makeButton } from "./ask.js";
import { smallBoard } from "./board.js";
import { followCourse } from "./course.js";

const BOARDS = 60;
const told = { boards: BOARDS, drawn: [], report: null, size: 0, open: null, turned: () => false, look: null };

function saidOf({ state, seconds, found, number, last, squeezes }) {
  if (state === "none") return "";
  if (state === "refused") return last;
  const kept = squeezes.length < found ? `; the first ${squeezes.length} are kept` : "";
  if (state === "done") return last + kept;
  const far = found ? `, ${found} zugzwangs, the last at ${number} of ${told.size}` : "";
  return state === "running" ? `going over ${told.size} numbers, ${seconds} s${far}` : `stopped after ${seconds} s${far}`;
}

// Draws the boards that are not drawn yet, or all of them where the first is another one.
function showBoards(squeezes) {
  const wanted = squeezes.slice(0, told.boards);
  if (told.drawn.some((fen, place) => fen !== wanted[place])) {
    told.drawn = [];
    at("squeezes").replaceChildren();
  }
  for (const fen of wanted.slice(told.drawn.length)) {
    const button = makeButton("", "small", () => told.open(fen));
    button.append(smallBoard(fen, told.turned()));
    at("squeezes").append(button);
  }
  told.drawn = wanted;
  at("more").hidden = squeezes.length <= told.boards;
}

// A class of open exits; atlas names the first position of each.
function exitItem({ count, men, fen }) {
  const words = `${men}: ${count} open exits`;
  if (!fen) return make("li", words);
  const item = make("li", "");
  item.append(makeButton(words, "reply", () => told.open(fen)));
  return item;
}

function showReport(report) {
  told.report = report;
  at("no-report").hidden = report.can;
  at("report-said").textContent = saidOf(report);
  at("exits").replaceChildren(...report.exits.map(exitItem));
  showBoards(report.squeezes);
}

// Draws the boards of the report anew, as the board was turned.
export function turnReport() {
  told.drawn = [];
  at("squeezes").replaceChildren();
  if (told.report) showBoards(told.report.squeezes);
}

// Begins to show reports of a table of this size; `open` shows a position, `turned` tells how.
export function beginReport(size, open, turned) {
  Object.assign(told, { size, open, turned });
  told.look();
}

export function listenToReport() {
  told.look = followCourse("report", showReport);
  at("report-start").addEventListener("click", () => {
    told.boards = BOARDS;
  });
  at("more").addEventListener("click", () => {
    told.boards += BOARDS;
    showBoards(told.report.squeezes);
  });
}
