// The hand on the board: a click picks a man and another one lays it down, or it is dragged there.

const HALF = 22.5;

function squareAt(event) {
  const found = document.elementFromPoint(event.clientX, event.clientY);
  return found?.closest?.("[data-square]")?.dataset.square ?? null;
}

// The place of an event in the units of the drawing.
function pointOf(svg, event) {
  return new DOMPoint(event.clientX, event.clientY).matrixTransform(svg.getScreenCTM().inverse());
}

// Listens to the pointer. `canPick` says whether a man of the square may move, `picked` which one is
// picked, `pick` picks one or none, and `lay` lays the picked one on a square.
export function listenToHand(svg, { canPick, picked, pick, lay }) {
  let again = false;
  let dragged = null;

  svg.addEventListener("pointerdown", (event) => {
    const square = squareAt(event);
    if (!square || event.button !== 0) return;
    again = square === picked();
    if (!canPick(square)) return;
    pick(square);
    dragged = svg.querySelector(`.man[data-square="${square}"]`);
  });
  svg.addEventListener("pointermove", (event) => {
    if (!dragged || event.buttons === 0) return;
    const { x, y } = pointOf(svg, event);
    dragged.classList.add("dragged");
    dragged.setAttribute("transform", `translate(${x - HALF} ${y - HALF})`);
    svg.append(dragged);
  });
  svg.addEventListener("pointerup", (event) => {
    const square = squareAt(event);
    const moved = dragged?.classList.contains("dragged");
    dragged = null;
    if (picked() && square !== picked()) lay(square);
    else if (moved || again) pick(again ? null : picked());
  });
  svg.addEventListener("pointerleave", () => {
    if (dragged?.classList.contains("dragged")) pick(null);
    dragged = null;
  });
}
