// The curve of the entropy, there and back: time goes on to the right when all particles are turned.
import { line, theme, write } from "./draw.js";
import { $, preset, shown } from "./state.js";

const MOST_POINTS = 4000, LEAST = 0.02; // of entropies that are shown apart
const last = (list) => list[list.length - 1];
/** Times and entropies of the way there, and of each way back. With `isAgain` a new start is another try. */
export const curve = { there: /** @type {number[][]} */ ([]), tries: /** @type {number[][][]} */ ([]), isAgain: false };
export const hasCurve = () => preset().isOrdered && $("entropy").checked && !shown.isOpened;

/** Takes what a frame has into the curve. @param {Frame} frame @param {Frame | null} before */
export function follow({ entropy, way, generation, direction, found }, before) {
  if (!before) Object.assign(curve, { there: [...way], tries: curve.isAgain ? curve.tries : [], isAgain: false });
  const wasBack = before !== null && before.direction < 0, { there, tries } = curve;
  if (direction < 0 && !wasBack) tries.push([]);
  if (entropy === null || (found !== null && !wasBack)) return;
  if (direction < 0 || found !== null) {
    const now = last(tries), time = 2 * last(there)?.[0] - generation;
    if (!(last(now)?.[0] >= time)) now.push([time, entropy]);
    return;
  }
  if (last(there)?.[0] > generation) tries.length = 0; // forwards again from an earlier time
  while (last(there)?.[0] >= generation) there.pop();
  there.push([generation, entropy]);
  if (there.length > MOST_POINTS) curve.there = there.filter((_, k) => k % 2);
}

/** The three numbers: at the start, turned, and now. */
export function wordsOfCurve() {
  const { there, tries } = curve, of = (one) => one?.[1].toFixed(4) ?? "–", turned = of(last(there));
  const numbers = tries.length ? `${turned} when turned, ${of(last(last(tries)))} now` : `${turned} now`;
  return `Entropy per cell: ${of(there[0])} at the start, ${numbers}. Counted is how many particles go each way in blocks of 8 × 8 cells. ` +
    "This entropy is the observer's, not the gas's, which forgets nothing.";
}

export function paintCurve(c, { left, right, top, bottom }) {
  const { there, tries } = curve, entropies = [there, ...tries].flat().map(([, entropy]) => entropy), high = Math.max(...entropies);
  if (!there.length) return;
  const low = Math.min(...entropies, high - LEAST), begun = there[0][0], end = last(there)[0], long = 2 * (end - begun) || 1;
  const X = (time) => left + ((time - begun) / long) * (right - left), Y = (entropy) => bottom - ((entropy - low) / (high - low)) * (bottom - top);
  const curveOf = (points, colour, wide) => line(c, points.map(([time, entropy]) => [X(time), Y(entropy)]), colour, wide);
  const names = [["the start", begun, "left"], [tries.length ? "turned" : "now", end, "center"], ["the start again?", begun + long, "right"]];
  for (const [text, time, align] of names) write(c, text, X(time), bottom + 18, { font: "13px", align });
  for (const value of [low, high]) write(c, value.toFixed(2), left - 6, Y(value) + 5, { font: "13px", align: "right" });
  line(c, [[X(end), top], [X(end), bottom]], theme.faint, 2);
  c.setLineDash([4, 5]);
  curveOf(there.map(([time, entropy]) => [2 * end - time, entropy]), theme.soft, 1.5);
  c.setLineDash([]);
  curveOf(there, theme.ink, 2);
  tries.forEach((one, k) => curveOf(one, k % 2 ? theme.v : theme.u, 3));
}
