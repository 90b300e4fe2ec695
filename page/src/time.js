// How time goes on: the worker runs alone, or at a slow pace the page shows every generation and asks for the next.
import { repaint, update } from "./screen.js";
import { $, asked, motion, shown, tell } from "./state.js";

export const isSlow = () => $("pace").value.endsWith(" s");

/** Runs or pauses. A run that only has another pace does not begin anew if it has come back to its start meanwhile. */
export function go(on, isOther = true) {
  tell("run", { on: on && !isSlow(), pace: parseFloat($("pace").value) || Infinity, asked: ++asked.runs, isOther });
  setRunning(on);
}

export const keepOn = () => go(shown.isRunning, false);

export function setRunning(on) {
  shown.isRunning = on;
  if (on && isSlow() && shown.frames.length) move();
  else Object.assign(motion, { isOn: false, phase: 0 });
  update();
  repaint();
}

/** A generation in pictures: before the collision, after it, streaming. Then the next one is asked for. */
export function move(span = 1000 * parseFloat($("pace").value)) {
  Object.assign(motion, { isOn: true, span, begun: performance.now() - (span * motion.phase) / 2 });
  repaint();
}
