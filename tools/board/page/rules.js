// The rules texts of the tables, line by line with their numbers, and what is said of their exit lines.
import { make } from "./ask.js";

const texts = []; // of each table, by its place, the elements of its lines

// Shows the text of the table at this place.
export function showText(pre, place, text) {
  const lines = text.split("\n");
  if (lines.at(-1) === "") lines.pop();
  texts[place] = lines.map((line) => make("span", line, "rule"));
  pre.replaceChildren(...texts[place]);
}

function lineAt(place, line) {
  return texts[place]?.[line - 1];
}

// Puts a mark behind a line of a text.
export function markLine(place, line, mark) {
  mark.classList.add("basis");
  lineAt(place, line)?.append(" ", mark);
}

export function clearMarks() {
  for (const mark of document.querySelectorAll(".basis")) mark.remove();
}

// Points at the line by which a way ended, or at none.
export function pointAt(place, line) {
  for (const other of document.querySelectorAll(".rule.culprit")) other.classList.remove("culprit");
  const found = lineAt(place, line);
  if (!found) return;
  found.classList.add("culprit");
  found.closest("details").open = true;
}
