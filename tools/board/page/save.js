// What is given away of the page: a text copied, a text or a drawing downloaded.

const KEPT = ["fill", "stroke", "stroke-width", "stroke-linejoin", "stroke-dasharray", "opacity", "font-size", "font-family"];

export function download(name, kind, text) {
  const link = document.createElement("a");
  link.href = URL.createObjectURL(new Blob([text], { type: kind }));
  link.download = name;
  link.click();
  URL.revokeObjectURL(link.href);
}

// The board as a drawing that needs no page: what its styles say stands at each part.
export function drawingOf(svg) {
  const copy = svg.cloneNode(true);
  const parts = svg.querySelectorAll("rect, path, text, g");
  copy.querySelectorAll("rect, path, text, g").forEach((part, place) => {
    const style = getComputedStyle(parts[place]);
    for (const name of KEPT) part.setAttribute(name, style.getPropertyValue(name));
    part.removeAttribute("class");
  });
  copy.removeAttribute("id");
  copy.setAttribute("width", "372");
  copy.setAttribute("height", "372");
  copy.setAttribute("xmlns", "http://www.w3.org/2000/svg");
  return new XMLSerializer().serializeToString(copy);
}
