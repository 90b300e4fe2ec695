// Theory beside the picture: what a sentence claims is drawn where it is to be seen.
import { line, theme, write } from "./draw.js";
import { GASES } from "./gases.js";
import { profileOf } from "./numbers.js";
import { amount, preset, shown } from "./state.js";

const THEORY = "#ffb000", MEASURED = "#fff", EDGE = "#000a"; // the last makes them seen on any colour

function bright(c, points, colour, dashes = /** @type {number[]} */ ([])) {
  c.setLineDash(dashes);
  line(c, points, EDGE, 6);
  line(c, points, colour, 3);
  c.setLineDash([]);
}

function words(c, text, x, y, colour) {
  Object.assign(c, { font: `600 ${16 * theme.unit}px ${theme.font}`, strokeStyle: EDGE, lineWidth: 4, lineJoin: "round", textAlign: "left" });
  c.strokeText(text, x, y);
  write(c, text, x, y, { font: `600 ${16 * theme.unit}px`, colour });
}

/** The mean speed of the rows of an empty channel, and dashed the parabola with the same mean. */
function paintProfile(c, frame, scale) {
  const { means, middles, fastest } = profileOf(frame), { width, height, apart } = frame, unit = theme.unit;
  const place = (part, row) => [(0.06 + 0.3 * part) * width * scale, (row - 0.5) * apart * scale], [x, y] = place(1.54, height / 2);
  bright(c, [place(0, 0), ...means.map((mean, k) => place(mean, middles[k])), place(0, height)], MEASURED);
  bright(c, Array.from({ length: 61 }, (_, k) => place(6 * k * (60 - k) / 3600, k * height / 60)), THEORY, [9, 8]);
  words(c, `the fastest row: ${fastest.toFixed(2)} of the mean`, x, y - 8 * unit, MEASURED);
  words(c, "a parabola: 1.50", x, y + 14 * unit, THEORY);
}

/** How far quiet sound comes from the edge of the burst: a circle, before it meets a wall. */
function paintCircle(c, { gas, width, height, apart, generation }, scale) {
  const middle = [width / 2, (height - 1) * apart / 2], radius = amount("radius") + GASES[gas].sound * generation;
  const place = (turn) => [middle[0] + radius * Math.cos(turn), middle[1] + radius * Math.sin(turn)].map((part) => part * scale);
  if (radius > Math.min(...middle)) return;
  bright(c, Array.from({ length: 97 }, (_, k) => place(Math.PI * k / 48)), THEORY, [9, 8]);
  words(c, "c t", ...place(-Math.PI / 4), THEORY);
}

export function paintTheory(c, frame, scale, hasWalls) {
  const { theory } = preset(), isSeen = !shown.isOpened && !frame.cells && !hasWalls;
  if (isSeen && theory === "parabola" && frame.wind && frame.direction > 0) paintProfile(c, frame, scale);
  if (isSeen && theory === "circle") paintCircle(c, frame, scale);
}
