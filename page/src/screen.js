// The screen: each frame of the worker is painted once, in turn. Words change less often, and all at once.
import { writeAddress } from "./address.js";
import { paintChart } from "./chart.js";
import { showControls } from "./controls.js";
import { contextOf, theme, within, write } from "./draw.js";
import { numbersOf } from "./numbers.js";
import { paintNumbers } from "./panel.js";
import { paintLattice, paneOf } from "./picture.js";
import { $, GAP, amount, head, look, motion, paneWidth, preset, shown, tell, view } from "./state.js";
import { paintStrip, stripHeight } from "./strip.js";

const TOLD_EVERY = 100; // milliseconds: faster than anybody reads
export const panes = [paneOf(), paneOf()];
export const screen = {
  take: (next) => {}, // what becomes of a frame before it is painted
  isScheduled: false,
  toldAt: 0, // when the words were written, or 0 if they must be
  addressTimer: 0,
};

export function repaint() {
  if (screen.isScheduled || !(shown.frames.length || shown.queue.length)) return;
  screen.isScheduled = true;
  requestAnimationFrame(paint);
}

function paint(now) {
  const next = shown.queue.shift();
  if (next) screen.take(next);
  const { width, height, context: c, isEmpty } = contextOf(view(), false);
  const { y, scale } = look.place, { height: rows, apart } = head();
  const part = motion.isOn ? Math.min(1, (now - motion.begun) / motion.span) : motion.phase / 2;
  const moment = { isCollided: part > 0.25, glide: Math.max(0, 2 * part - 1) };
  const end = ((rows - 0.5) * apart - y) * scale + 3; // of the lattice
  const bottom = Math.round(Math.min(height - stripHeight(width), Math.max(60, end)));
  const isTold = !next || isEmpty || !shown.isRunning || now > screen.toldAt + TOLD_EVERY;
  c.fillStyle = theme.paper;
  c.fillRect(0, 0, width, isTold ? height : bottom);
  shown.frames.forEach((_, k) => paintPane(c, k, paneWidth(width), bottom, moment));
  const stage = moment.glide ? "streaming" : moment.isCollided ? "after the collision" : "before the collision";
  if (isTold) paintStrip(c, { width, top: bottom, stage });
  if (next) painted(now);
  if (next && isTold) tellNumbers(now);
  if (motion.isOn && part === 1) {
    Object.assign(motion, { isOn: false, phase: 2 });
    tell("step", {});
  }
  screen.isScheduled = false;
  if (motion.isOn || shown.queue.length) repaint();
}

function paintPane(c, k, wide, bottom, moment) {
  const { x, y, scale } = look.place, left = k * (wide + GAP), frame = shown.frames[k];
  within(c, left, 0, wide, bottom, () => {
    c.translate(left - x * scale, -y * scale);
    paintLattice(c, frame, scale, panes[k], $("tracers").checked, moment);
  });
  if (shown.frames.length === 1) return;
  const size = theme.unit * (wide < 300 ? 14 : 19), [across, down] = [Math.max(0, -x * scale) + 10, Math.max(0, (-frame.apart / 2 - y) * scale)];
  write(c, preset().captions[k] ?? "", left + across, down + 1.5 * size, { font: `600 ${size}px`, most: wide - across });
}

/** A frame is on the screen: the worker may send the next. */
function painted(begun) {
  const { generation } = head();
  tell("seen", {});
  shown.times.push([begun, generation]);
  if (shown.times.length > 50) shown.times.shift();
  shown.painted++;
  if (generation && !performance.getEntriesByName("moved").length) performance.mark("moved", { detail: shown.painted });
}

export function tellNumbers(now) {
  screen.toldAt = now;
  paintNumbers();
  paintChart(numbersOf(head(), amount("length")));
  update();
}

/** Shows what the controls say, and soon writes the address. */
export function update() {
  showControls();
  screen.addressTimer ||= window.setTimeout(() => {
    screen.addressTimer = 0;
    if (shown.frames.length) writeAddress();
  }, 400);
}
