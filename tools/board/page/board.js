// A board with coordinates, from a FEN.
import { drawMan, element, nameOf } from "./men.js";

const FILES = "abcdefgh";
const SIZE = 45;
const MARGIN = 6;

// The men of a FEN, by their squares.
export function menOf(fen) {
  const men = {};
  fen.trim().split(" ")[0].split("/").forEach((row, index) => {
    let file = 0;
    for (const sign of row) {
      if (sign >= "1" && sign <= "8") file += Number(sign);
      else men[FILES[file++] + (8 - index)] = sign;
    }
  });
  return men;
}

// The men in words, for who does not see the board.
export function wordsOf(fen) {
  return Object.entries(menOf(fen)).map(([square, letter]) => `${nameOf(letter)} ${square}`).join(", ");
}

function cornerOf(square, turned) {
  const file = FILES.indexOf(square[0]);
  const rank = Number(square[1]) - 1;
  return [MARGIN + SIZE * (turned ? 7 - file : file), MARGIN + SIZE * (turned ? rank : 7 - rank)];
}

function coordinates(svg, turned) {
  for (let at = 0; at < 8; at++) {
    const file = FILES[turned ? 7 - at : at];
    const rank = turned ? at + 1 : 8 - at;
    const below = element("text", { class: "coordinate", x: MARGIN + SIZE * at + 42, y: MARGIN + SIZE * 8 - 3, "text-anchor": "end" });
    below.textContent = file;
    const beside = element("text", { class: "coordinate", x: MARGIN + 3, y: MARGIN + SIZE * at + 12 });
    beside.textContent = rank;
    svg.append(below, beside);
  }
}

function drawSquares(svg, turned, marks) {
  for (const file of FILES) {
    for (let rank = 1; rank <= 8; rank++) {
      const square = file + rank;
      const [x, y] = cornerOf(square, turned);
      const dark = (FILES.indexOf(file) + rank) % 2 === 1;
      const kind = `square ${dark ? "dark" : "light"} ${marks[square] ?? ""}`;
      svg.append(element("rect", { class: kind, x, y, width: SIZE, height: SIZE, "data-square": square }));
    }
  }
}

// Draws the position. `marks` gives squares a class of their own, `fast` the letters of the men that the
// set holds on their squares.
export function drawBoard(svg, fen, { turned = false, fast = {}, marks = {}, plain = false } = {}) {
  svg.replaceChildren();
  drawSquares(svg, turned, marks);
  if (!plain) coordinates(svg, turned);
  for (const [square, letter] of Object.entries(menOf(fen))) {
    const [x, y] = cornerOf(square, turned);
    const man = drawMan(letter, fast[square] === letter);
    man.setAttribute("transform", `translate(${x} ${y})`);
    man.setAttribute("data-square", square);
    svg.append(man);
  }
}

// A small board to press.
export function smallBoard(fen, turned) {
  const svg = element("svg", { viewBox: "0 0 372 372", role: "img", "aria-label": `${wordsOf(fen)}; ${fen}` });
  drawBoard(svg, fen, { turned, plain: true });
  return svg;
}
