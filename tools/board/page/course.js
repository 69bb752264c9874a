// A course of the server, as its report: begun, followed and stopped by parts of the page with its name.
import { ask, at, shown } from "./ask.js";

const AGAIN = 500; // milliseconds between two questions how far it is

// Listens to the buttons of the course; `show` shows what is told of it. Gives back what asks how far it is.
export function followCourse(name, show) {
  let again = 0;
  const look = shown(async (order = "") => {
    const told = await ask(name + order);
    const running = told.state === "running";
    at(`${name}-stop`).hidden = at(`${name}-going`).hidden = !running;
    at(`${name}-start`).disabled = running || told.state === "done" || !told.can;
    show(told);
    clearTimeout(again);
    if (running) again = setTimeout(look, AGAIN);
  });
  at(`${name}-start`).addEventListener("click", () => {
    look("/start");
    at(`${name}-stop`).hidden = false;
    at(`${name}-stop`).focus();
  });
  at(`${name}-stop`).addEventListener("click", () => look("/stop"));
  return () => look();
}
