// The game as the page lists it: the line that is shown, and the side lines along it.
import { at, makeButton } from "./ask.js";
import { headOf } from "./tree.js";

function item(node, text, kind, go) {
  const made = document.createElement("li");
  made.append(makeButton(text, kind, () => go(node)));
  return made;
}

function stepItem(node, here, go) {
  const kind = `${node === here ? "here" : ""} ${node.last ? "last" : ""}`.trim();
  const made = item(node, node.parent ? headOf(node) + node.san : "start", kind, go);
  if (node === here) made.firstChild.setAttribute("aria-current", "step");
  return made;
}

// Shows the game of a tree; `go` goes to a position of it.
export function showGame(tree, go) {
  const inside = at("game").contains(document.activeElement);
  const line = tree.line();
  at("game").replaceChildren(...line.map((node) => stepItem(node, tree.here, go)));
  const branches = tree.branches();
  at("branches").replaceChildren(...branches.map((node) => item(node, headOf(node, true) + node.san, "", go)));
  at("branches-head").hidden = !branches.length;
  if (inside) at("game").querySelector(".here").focus();
  at("back").disabled = tree.here === tree.root;
  at("forth").disabled = at("on").disabled = tree.here === line.at(-1);
  at("undo").disabled = !tree.done.length && !tree.former;
  at("remove").disabled = tree.here === tree.root;
}

// What the server has said of a position, kept at its place in the game.
export function learn(node, { turn, bounds, verdict, end, moves }) {
  const thrown = moves.filter((move) => move.marks.some((mark) => mark.startsWith("throws")));
  Object.assign(node, { turn, bounds, verdict, end, thrown: new Set(thrown.map((move) => move.san)) });
}
