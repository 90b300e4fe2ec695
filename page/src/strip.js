// The strip below the picture, and in it when it is saved: scale, wind, gas, legend.
import { imageOf, line, nice, theme, within, write } from "./draw.js";
import { FIELDS } from "./fields.js";
import { GASES } from "./gases.js";
import { count, fixed, round } from "./numbers.js";
import { coloursOf } from "./picture.js";
import { each, head, look } from "./state.js";

/** Pixels of its height: in a narrow picture the legend has lines of its own. */
export const stripHeight = (width) => theme.unit * (width < 560 * theme.unit ? 108 : 62);
const legend = document.createElement("canvas");

/** @param {CanvasRenderingContext2D} c @param {{ width: number, top: number, stage: string }} where */
export function paintStrip(c, { width: wide, top, stage }) {
  c.save();
  c.translate(0, top);
  c.scale(theme.unit, theme.unit);
  const width = wide / theme.unit, isNarrow = width < 560, bar = isNarrow ? width - 28 : Math.min(340, width * 0.36), left = width - bar - 14;
  const scale = look.place.scale / theme.unit, cells = nice(Math.max(1, 110 / scale)), end = 14 + cells * scale;
  c.fillStyle = theme.paper;
  c.fillRect(0, 0, width, 108);
  c.lineCap = "butt";
  line(c, [[14, 16], [end, 16]], theme.ink, 3);
  for (const x of [14, end]) line(c, [[x, 10], [x, 22]], theme.ink, 3);
  write(c, `${count(cells)} cell${cells > 1 ? "s" : ""}`, end + 8, 22, { font: "600 15px" });
  within(c, 0, 0, isNarrow ? width : left - 12, 62, () => paintWords(c, end + 100, stage, width));
  paintLegend(c, head(), left, isNarrow ? 50 : 0, bar);
  c.restore();
}

function paintWords(c, x, stage, wide) {
  const isNarrow = wide < 560, { u, wind, direction, cells, width, height, generation } = head();
  const sides = ({ gas, chirality }) => (isNarrow || !GASES[gas].isHexagonal ? "" : `, pairs turn ${chirality === "seeded" ? "at random" : chirality}`);
  const arrow = Math.abs(u) < 0.005 && !wind ? "" : u < 0 ? "← wind" : "wind →";
  const way = [arrow, direction > 0 ? "" : isNarrow ? "back" : "on the way back"];
  if (cells) write(c, isNarrow ? stage : `${stage}: orange particles collide`, x, 22, { font: "14px" });
  else write(c, way.filter(Boolean).join(", "), x, 22, { font: "600 15px" });
  const gas = each((one) => one.gas + sides(one)), filling = each(({ middle, fluid }) => (fluid ? middle.toFixed(3) : "–"));
  const when = wide < 900 ? "" : `, generation ${count(generation)}`;
  write(c, `${gas}, d = ${filling}, ${width} × ${height} cells${when}`, 14, 48, { font: "14px" });
}

function paintLegend(c, frame, left, top, bar) {
  const { legend: words, isSigned } = FIELDS[frame.field], colours = coloursOf(frame.field), { field, most } = frame;
  const middle = field === "density" ? frame.middle : 0, ends = isSigned ? [-most, middle, most] : [0, most / 2, most];
  c.globalAlpha = frame.cells ? 0.3 : 1;
  c.drawImage(imageOf(legend, 255, 1, (out) => out.set(colours.subarray(1))), left, top + 24, bar, 14);
  Object.assign(c, { globalAlpha: 1, lineWidth: 1, strokeStyle: theme.ink });
  c.strokeRect(left + 0.5, top + 24.5, bar - 1, 13);
  write(c, words, left + bar, top + 18, { font: "600 13px", align: "right" });
  ends.forEach((value, k) => {
    const text = value === frame.middle && isSigned ? fixed(value, 3) : round(value);
    write(c, text, left + (bar * k) / 2, top + 54, { font: "13px", align: ["left", "center", "right"][k] });
  });
}
