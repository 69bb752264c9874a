// The game with its side lines: a tree of positions, the place that is shown, and what can be undone.

export class Tree {
  // A game that begins at a position.
  constructor(fen) {
    this.root = { fen, parent: null, children: [], chosen: null };
    this.here = this.root;
    this.done = [];
  }

  // The positions of the line that is shown: those before the place, and those chosen behind it.
  line() {
    const before = [];
    for (let node = this.here; node; node = node.parent) before.unshift(node);
    for (let node = this.here.chosen; node; node = node.chosen) before.push(node);
    return before;
  }

  // Goes to a position of the tree, whose line is then the one that is shown.
  go(node) {
    for (let at = node; at.parent; at = at.parent) at.parent.chosen = at;
    this.here = node;
  }

  // Puts steps behind a position, each once, as the line that is shown; gives back the last of them. What
  // stood there stays as a side line.
  put(node, steps) {
    const before = { here: this.here, chosen: node.chosen };
    let added = null;
    let at = node;
    for (const step of steps) {
      let next = at.children.find((child) => child.san === step.san);
      if (!next) {
        next = { ...step, parent: at, children: [], chosen: null };
        at.children.push(next);
        added ??= next;
      }
      Object.assign(next, { last: step.last });
      at.chosen = next;
      at = next;
    }
    if (added) this.done.push(() => this.takeBack(added, node, before));
    return at;
  }

  takeBack(added, node, { here, chosen }) {
    const { parent } = added;
    parent.children = parent.children.filter((child) => child !== added);
    if (parent.chosen === added) parent.chosen = parent.children[0] ?? null;
    node.chosen = chosen;
    this.go(here);
  }

  // Removes the line that begins with the last branch before the place, or what follows the start.
  remove() {
    let node = this.here;
    while (node.parent && node.parent.parent && node.parent.children.length === 1) node = node.parent;
    const { parent } = node;
    if (!parent) return;
    const before = { children: parent.children, chosen: parent.chosen, here: this.here };
    parent.children = parent.children.filter((child) => child !== node);
    parent.chosen = parent.children[0] ?? null;
    this.here = parent;
    this.done.push(() => {
      Object.assign(parent, { children: before.children, chosen: before.chosen });
      this.go(before.here);
    });
  }

  // The side lines along the line that is shown: each first move that was tried besides.
  branches() {
    return this.line().flatMap((node) => (node.parent?.children ?? []).filter((child) => child !== node));
  }
}

// The number of the move that comes after a FEN; a FEN of four fields has none.
function numberOf(fen) {
  return Number(fen.trim().split(/ +/)[5] ?? 1) || 1;
}

// The number before a move, as `1. ` or `1... `; nothing before a move of Black's that follows White's.
export function headOf(node, alone) {
  let plies = 0;
  let root = node;
  for (; root.parent; root = root.parent) plies += 1;
  const black = root.fen.trim().split(/ +/)[1] === "b";
  const ply = plies - 1 + (black ? 1 : 0);
  const number = numberOf(root.fen) + Math.floor(ply / 2);
  if (ply % 2 === 0) return `${number}. `;
  return alone || plies === 1 ? `${number}... ` : "";
}
