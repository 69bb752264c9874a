// The bounds of both sides and the moves of a position, as the server tells them.
import { at, make, makeButton } from "./ask.js";

function boundRow({ words, kind, plies }) {
  const row = make("p", "", `bound ${kind}`);
  row.append(make("span", words, "words"));
  if (plies !== null) row.append(make("span", String(plies), "plies"));
  return row;
}

// Shows what the position is worth to each side, and who is to move; `name` is that of the table that
// says so, where it is one behind.
export function showBounds({ bounds, said, end, turn, verdict, beside }, name) {
  const by = name ? `, by ${name}` : "";
  at("bounds").replaceChildren(
    make("p", verdict, "verdict"),
    ...rowsOf(bounds, said),
    make("p", `${turn} to move${end ? `: ${end}` : ""}${by}`, "turn"),
    ...(beside ? [make("p", `by ${beside.table}:`, "turn"), ...rowsOf(beside.bounds, beside.said)] : []),
  );
}

function rowsOf(bounds, said) {
  return bounds.length ? bounds.map(boundRow) : [boundRow({ words: said, kind: "outside", plies: null })];
}

function moveItem(move, play) {
  const item = document.createElement("li");
  const button = makeButton("", `move ${move.kind}`, () => play(move));
  button.append(make("span", move.san, "san"), make("span", move.said, "after"));
  if (move.beside !== undefined) button.append(make("span", `beside: ${move.beside}`, "after"));
  const marks = make("span", "", "marks");
  marks.append(...move.marks.map((words) => make("span", words, "mark")));
  if (move.marks.length) button.append(marks);
  item.append(button);
  return item;
}

// Shows the moves in their order; those from one square alone where a man is picked.
export function showMoves(moves, play) {
  at("moves").replaceChildren(...moves.map((move) => moveItem(move, play)));
}
