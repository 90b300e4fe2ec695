// What the worker sent is taken: the next frame, perhaps of flows that begin.
import { again } from "./acts.js";
import { OPENED, applyState, hasText, setControl, showOpened, stateText } from "./address.js";
import { follow } from "./curve.js";
import { fit, lookAsAsked } from "./look.js";
import { count } from "./numbers.js";
import { wallsOf } from "./picture.js";
import { setProbe } from "./pointer.js";
import { panes, screen } from "./screen.js";
import { $, asked, element, head, marks, motion, shown } from "./state.js";
import { isSlow, move, setRunning } from "./time.js";
import { hideNotes, introduce, note } from "./words.js";

export function take({ frames, serial, asked: number, undoes, redoes, isRunning, runs, strokes, state, hashes = [] }) {
  const isNew = serial !== shown.serial, before = isNew ? null : head(), { generation, direction } = frames[0];
  if (undoes !== shown.undoes || redoes !== shown.redoes || direction !== before?.direction) screen.toldAt = 0;
  const isMoved = generation !== before?.generation;
  Object.assign(shown, { frames, serial, undoes, redoes, hashes });
  if (!isSlow() && runs === asked.runs) shown.isRunning = isRunning; // else of a frame that was under way
  marks.pieces.splice(0, strokes);
  if (isNew) beginAnew(state, number < asked.starts);
  if (isMoved) Object.assign(motion, { phase: 0, isOn: false });
  frames.forEach((frame, k) => {
    if (frame.walls) panes[k].walls = wallsOf(frame, frame.walls);
    panes[k].tracers.carry(frame);
    if (frame.notes.length) marks.touched = null;
    if (number === asked.starts) for (const text of frame.notes) note(text, "", 9); // else of cells that are going
  });
  if (before && direction > before.direction) runsForwards(frames[0]);
  if (isMoved) sample(frames[0]);
  follow(frames[0], before);
  tellReturn(before);
  if (isMoved && shown.isRunning && isSlow()) move();
}

/** Time runs forwards again, perhaps from cells that never were before. */
function runsForwards({ wind, chirality, gas, origin, generation }) {
  if (origin === generation) marks.samples = [];
  Object.entries({ keep: wind !== null, chirality, gas }).forEach(([id, value]) => setControl(id, value));
}

/** Keeps what the probe measured; of many samples every second one. On the way back they are taken away again. */
function sample({ probe, generation, incoming, direction }) {
  if (!probe || String(probe.at) !== String(marks.probe?.at)) return;
  while (marks.samples.length && marks.samples[marks.samples.length - 1].generation >= generation) marks.samples.pop();
  if (direction > 0) marks.samples.push({ generation, u: probe.u, v: probe.v, incoming });
  if (marks.samples.length > 8000) marks.samples = marks.samples.filter((_, k) => k % 2);
}

function tellReturn(before) {
  const { found, generation, width, height } = head();
  if (found === null || !before || before.found !== null) return;
  setRunning(false);
  if (hasText() && !shown.isOpened) return tellMessage(found);
  note(`Back at generation ${count(generation)}: ${count(found)} of ${count(width * height)} cells differ from the cells of then.`, found ? "bad" : "good");
}

/** Of a message the sentence says it, because a note would lie on the text. */
function tellMessage(found) {
  introduce(found ? "It does not come back." : "It came back.");
  const offer = (id, text, isTurned) => {
    const one = element("button", { id, type: "button" }, text);
    one.onclick = () => again(isTurned);
    return one;
  };
  $("sentence").append(" ", offer("once", "Turn one, and go back again", true), " ", offer("again", "Back to the noise", false));
}

/** The flows of a state are there, perhaps late, because the controls have asked for others meanwhile. */
function beginAnew(state, isLate) {
  showOpened(state === OPENED);
  if (shown.isOpened) {
    hideNotes();
    introduce("A scene that was opened. Run starts it.", "");
    setRunning(false);
  } else if (!isLate && state !== stateText()) {
    applyState(state);
    introduce();
  }
  const { at, probe, refused } = asked;
  Object.assign(marks, { samples: [], pieces: [], probe: null, touched: null });
  shown.times = [];
  shown.frames.forEach((frame, k) => panes[k].tracers.spread(frame));
  runsForwards(head());
  fit();
  Object.assign(asked, { at: null, probe: null, refused: [] });
  if (probe) setProbe({ at: [probe[0], probe[1]], radius: probe[2] });
  if (at) lookAsAsked(at);
  if (refused.length) head().notes.push(`The address asks for what there is not: ${refused.join(", ")}.`);
}
