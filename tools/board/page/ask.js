// Questions to the server, small pieces of the page, and where a refusal is shown.

export const at = (id) => document.getElementById(id);

export async function ask(question, words = {}) {
  const answer = await fetch(`${question}?${new URLSearchParams(words)}`);
  if (!answer.ok) throw new Error(await answer.text());
  return answer.json();
}

export function make(name, text, kind = "") {
  const made = document.createElement(name);
  made.textContent = text;
  if (kind) made.className = kind;
  return made;
}

export function makeButton(text, kind, pressed) {
  const button = make("button", text, kind);
  button.type = "button";
  button.addEventListener("click", pressed);
  return button;
}

export function refuse(text) {
  at("refusal").textContent = text;
}

// Runs what asks, and shows why where no answer comes.
export function shown(task) {
  return (...words) => task(...words).catch((fault) => refuse(`no answer: ${fault.message}`));
}
