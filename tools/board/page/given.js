// A page that is given away: it shows the positions that stand in it, `given`, and asks nobody.
import { drawBoard, wordsOf } from "./board.js";

const at = (id) => document.getElementById(id);
const state = { way: [{ fen: given.start, san: "start" }], turned: false };

function make(name, text, kind = "") {
  const made = document.createElement(name);
  made.textContent = text;
  if (kind) made.className = kind;
  return made;
}

function button(text, kind, pressed) {
  const made = make("button", text, kind);
  made.type = "button";
  if (pressed) made.addEventListener("click", pressed);
  else made.disabled = true;
  return made;
}

function go(way) {
  state.way = way;
  show();
}

function moveItem(move) {
  const item = document.createElement("li");
  const pressed = move.after ? () => go([...state.way, { fen: move.after, san: move.san, move: move.move }]) : null;
  const made = button("", `move ${move.kind}`, pressed);
  made.append(make("span", move.san, "san"), make("span", [move.said, ...move.marks].join("; "), "after"));
  item.append(made);
  return item;
}

function stepItem(step, place) {
  const item = document.createElement("li");
  item.append(button(step.san, place + 1 === state.way.length ? "here" : "", () => go(state.way.slice(0, place + 1))));
  return item;
}

function show() {
  const { fen, move } = state.way.at(-1);
  const told = given.positions[fen];
  const marks = move ? { [move.slice(0, 2)]: "last", [move.slice(2, 4)]: "last" } : {};
  drawBoard(at("board"), fen, { turned: state.turned, fast: given.tables[told.table ?? 0].fast, marks });
  at("board").setAttribute("aria-label", wordsOf(fen));
  at("fen-said").textContent = fen;
  const rows = told.bounds.length ? told.bounds : [{ words: told.said, kind: "outside" }];
  const by = told.table ? `, by ${given.tables[told.table].name}` : "";
  at("bounds").replaceChildren(
    make("p", told.verdict, "verdict"),
    ...rows.map(({ words, kind }) => make("p", words, `bound ${kind}`)),
    make("p", `${told.turn} to move${told.end ? `: ${told.end}` : ""}${by}`, "turn"),
  );
  at("moves").replaceChildren(...told.moves.map(moveItem));
  at("game").replaceChildren(...state.way.map(stepItem));
  at("back").disabled = at("first").disabled = state.way.length === 1;
}

function textOf({ name, size, text }) {
  const details = document.createElement("details");
  details.append(make("summary", `Rules text of ${name}, ${size} numbers`), make("pre", text));
  return details;
}

function back() {
  if (state.way.length > 1) go(state.way.slice(0, -1));
}

function flip() {
  state.turned = !state.turned;
  show();
}

at("title").textContent = document.title;
at("texts").replaceChildren(...given.tables.map(textOf));
at("first").addEventListener("click", () => go(state.way.slice(0, 1)));
at("back").addEventListener("click", back);
at("flip").addEventListener("click", flip);
document.addEventListener("keydown", (event) => {
  if (event.key === "ArrowLeft") back();
  if (event.key === "f") flip();
});
show();
