// The men, drawn in squares of 45 by 45.

const BASE = "M12 39h21v-3c0-3-4-4-5-6h-11c-1 2-5 3-5 6z";
const OUTLINES = {
  p: "M22.5 9a6 6 0 0 1 4 10.5c-1 1 2 5 3 11h-14c1-6 4-10 3-11a6 6 0 0 1 4-10.5z",
  r: "M12 8h4v4h4v-4h5v4h4v-4h4v9l-4 3v10h-13v-10l-4-3z",
  n: "M15 30c0-6 5-8 6-11c-3 0-5 2-8 3l-3-3c1-6 4-10 8-12l1-4l3 3c10 3 12 13 10 24z",
  b: "M22.5 6a2.5 2.5 0 0 1 1.5 4.5c6 4 9 11 4 17l-1 2.5h-9l-1-2.5c-5-6-2-13 4-17a2.5 2.5 0 0 1 .5-4.5z",
  q: "M9 12l5 8l3-11l5.5 10l5.5-10l3 11l5-8l-4 18h-19z",
  k: "M21 4h3v3h3v3h-3v4c4-3 12-2 12 5c0 5-4 7-5 11h-17c-1-4-5-6-5-11c0-7 8-8 12-5v-4h-3v-3h3z",
};
const NAMES = { p: "pawn", r: "rook", n: "knight", b: "bishop", q: "queen", k: "king" };
const SVG = "http://www.w3.org/2000/svg";

export function element(name, attributes = {}) {
  const made = document.createElementNS(SVG, name);
  for (const [key, value] of Object.entries(attributes)) made.setAttribute(key, value);
  return made;
}

export function nameOf(letter) {
  const colour = letter === letter.toUpperCase() ? "White" : "Black";
  return `${colour} ${NAMES[letter.toLowerCase()]}`;
}

// A man as a group whose corner is that of his square; one that the set holds fast is hatched below.
export function drawMan(letter, fast) {
  const white = letter === letter.toUpperCase();
  const man = element("g", { class: `man ${white ? "white" : "black"}${fast ? " fast" : ""}` });
  man.append(element("path", { d: OUTLINES[letter.toLowerCase()] }), element("path", { d: BASE }));
  if (fast) man.append(element("path", { class: "held", d: "M9 42h27" }));
  const title = element("title");
  title.textContent = nameOf(letter) + (fast ? ", held fast by the set" : "");
  man.append(title);
  return man;
}
