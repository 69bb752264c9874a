// PGN: a game with its side lines written, and one read. The moves are those of the program; what a bound is,
// and whether a move throws one away, the server has said of each position.
import { headOf } from "./tree.js";

const WIDTH = 79;
const RESULTS = ["1-0", "0-1", "1/2-1/2", "*"];

function kindsOf(bounds) {
  return bounds.map(({ kind, plies }) => ({ kind, plies }));
}

// Whether a bound is another one behind a move than it was, beyond the ply that the move takes.
function changes(before, after) {
  if (before.length !== after.length) return true;
  return kindsOf(after).some(({ kind, plies }, side) => {
    const old = before[side];
    return kind !== old.kind || (plies !== null && plies !== old.plies - 1);
  });
}

function commentOf(node) {
  return `{${node.verdict}: ${node.bounds.length ? node.bounds.map(({ words }) => words).join(", ") : "outside"}}`;
}

// The words for a move, and for the side lines beside it.
function wordsOf(node, alone) {
  const wrong = node.parent.thrown.has(node.san) ? "?" : "";
  const words = [headOf(node, alone) + node.san + wrong];
  if (changes(node.parent.bounds, node.bounds)) words.push(commentOf(node));
  return words;
}

function wordsBehind(node, alone) {
  const main = node.chosen ?? node.children[0];
  if (!main) return [];
  const words = wordsOf(main, alone);
  const sides = node.children.filter((child) => child !== main);
  for (const side of sides) words.push("(", ...wordsOf(side, true), ...wordsBehind(side, needsHead(side)), ")");
  return [...words, ...wordsBehind(main, sides.length > 0 || needsHead(main))];
}

// A comment behind a move of White's wants the number before Black's reply.
function needsHead(node) {
  return changes(node.parent.bounds, node.bounds);
}

function resultOf(root) {
  let node = root;
  while (node.chosen ?? node.children[0]) node = node.chosen ?? node.children[0];
  if (node.end === "stalemate") return "1/2-1/2";
  if (node.end !== "mate") return "*";
  return node.turn === "white" ? "0-1" : "1-0";
}

function wrapped(words) {
  const lines = [];
  for (const word of words.join(" ").replaceAll("( ", "(").replaceAll(" )", ")").split(" ")) {
    const longer = lines.length ? `${lines.at(-1)} ${word}` : "";
    if (longer && longer.length <= WIDTH) lines[lines.length - 1] = longer;
    else lines.push(word);
  }
  return lines.join("\n");
}

function tag(name, value) {
  return `[${name} "${value.replaceAll("\\", "\\\\").replaceAll('"', '\\"')}"]`;
}

function sixFields(fen) {
  const fields = fen.trim().split(/ +/);
  return [...fields, "0", "1"].slice(0, Math.max(6, fields.length)).join(" ");
}

// The game of a tree whose positions all have their bounds.
export function writePgn(root, name) {
  const result = resultOf(root);
  const tags = [
    tag("Event", name), tag("Site", "Freezer"), tag("Date", "????.??.??"), tag("Round", "-"), tag("White", "White"),
    tag("Black", "Black"), tag("Result", result), tag("SetUp", "1"), tag("FEN", sixFields(root.fen)),
  ];
  return `${tags.join("\n")}\n\n${wrapped([commentOf(root), ...wordsBehind(root, false), result])}\n`;
}

const TOKEN = /\{[^}]*\}|;[^\n]*|\$\d+|[()]|1\/2-1\/2|1-0|0-1|\*|[^\s(){};$]+/g;

// The FEN of the first game of a PGN, and its moves in algebraic notation: a list of moves, each with the lists
// that were tried instead of it.
export function readPgn(text) {
  const tags = Object.fromEntries([...text.matchAll(/^\s*\[(\w+)\s+"((?:[^"\\]|\\.)*)"\]/gm)].map((found) => [found[1], found[2]]));
  const game = text.replaceAll("\r", "").replace(/^%.*$/gm, "").replace(/^\s*\[[^\]]*\]\s*$/gm, "");
  const lists = [[]];
  for (const token of game.match(TOKEN) ?? []) {
    if ("{;$".includes(token[0])) continue;
    if (token === "(") {
      const side = [];
      lists.at(-1).at(-1)?.sides.push(side);
      lists.push(side);
    } else if (token === ")") {
      if (lists.length > 1) lists.pop();
    } else if (RESULTS.includes(token)) {
      if (lists.length === 1) break;
    } else {
      const san = token.replace(/^\d+\.*/, "").replace(/^\.+/, "").replace(/[!?]+$/, "");
      if (san) lists.at(-1).push({ san, sides: [] });
    }
  }
  return { fen: tags.FEN ?? "rnbqkbnr/pppppppp/8/8/8/8/PPPPPPPP/RNBQKBNR w KQkq - 0 1", moves: lists[0] };
}
