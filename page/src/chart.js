// The chart below the picture: of the probe, or the curve of the entropy.
import { hasCurve, paintCurve, wordsOfCurve } from "./curve.js";
import { contextOf, line, nice, theme, write } from "./draw.js";
import { STREET, count, round, strouhal } from "./numbers.js";
import { LEAST_PERIODS, periodOf } from "./probe.js";
import { $, amount, head, marks, preset, setText } from "./state.js";

/** The period that a street has, of a preset that says so. */
const streetOf = ({ turnover = 0 }) => (preset().theory === "street" && turnover ? turnover / STREET : 0);

function linesOf(numbers) {
  const { g, turnover, speed } = numbers, known = streetOf(numbers), { blockage, incoming } = head(), radius = marks.probe?.radius ?? 0, length = amount("length");
  const period = g && turnover ? periodOf(marks.samples, turnover) : null;
  const lines = [`of a disc of ${round(2 * radius)} cells`, ...(known ? [`a street of St = ${STREET}: T = ${count(Math.round(known))}`] : [])];
  if (!period || !g) lines.push(`no period yet: ${LEAST_PERIODS} alike are asked for`);
  else {
    const met = period.incoming ?? incoming, shown = (by) => {
      const number = strouhal(length, period.period, g, by);
      return `St = ${number.toFixed(3)} ± ${((number * period.error) / period.period).toFixed(3)}`;
    };
    lines.push(`T = ${count(Math.round(period.period))} ± ${round(period.error, 2)} (${period.count} periods)`);
    lines.push(`${shown(speed)} of the mean u`);
    if (met) lines.push(`${shown(met)} of the incoming ${met.toFixed(3)}`);
  }
  return [...lines, `the obstacle blocks ${Math.round(100 * blockage)} % of the channel`];
}

/** @param {ReturnType<import("./numbers.js").numbersOf>} numbers */
export function paintChart(numbers) {
  const isCurve = !marks.probe && hasCurve(), chart = $("chart");
  $("probed").hidden = !marks.probe && !isCurve;
  if ($("probed").hidden) return;
  $("probed").className = isCurve ? "curve" : "";
  $("parts").hidden = isCurve;
  setText($("found"), isCurve ? wordsOfCurve() : linesOf(numbers).join("\n"));
  chart.setAttribute("aria-label", isCurve ? "the entropy over time, there and back" : "the velocity at the probe over time");
  const { width: wide, height: tall, context: c } = contextOf(chart, true), [width, height] = [wide, tall].map((size) => size / theme.unit);
  c.scale(theme.unit, theme.unit);
  c.clearRect(0, 0, width, height);
  const box = { left: 58, right: width - 28, top: 10, bottom: height - 24 };
  if (isCurve) paintCurve(c, box);
  else if (marks.samples.length) paintSamples(c, box, streetOf(numbers));
}

/** The samples, and above them as long a line as a street's period. */
function paintSamples(c, box, known) {
  const { samples } = marks, values = samples.flatMap(({ u, v }) => [u, v]);
  const least = Math.min(0, ...values), largest = Math.max(0.01, ...values);
  const step = nice((largest - least) / 2.5), low = Math.floor(least / step), high = Math.ceil(largest / step);
  const first = samples[0].generation, last = Math.max(first + 1, samples[samples.length - 1].generation);
  const X = (at) => box.left + ((at - first) / (last - first)) * (box.right - box.left);
  const Y = (value) => box.bottom - ((value / step - low) / (high - low)) * (box.bottom - box.top);
  for (let k = low; k <= high; k++) {
    line(c, [[box.left, Y(k * step)], [box.right, Y(k * step)]], theme.faint, 1);
    write(c, round(k * step), box.left - 6, Y(k * step) + 5, { font: "13px", align: "right" });
  }
  const ticks = nice(Math.max(1, (last - first) / 3));
  for (let at = Math.ceil(first / ticks) * ticks; at <= last; at += ticks) {
    write(c, count(at), X(at), box.bottom + 18, { font: "13px", align: "center" });
  }
  if (known && known < last - first) {
    c.setLineDash([9, 8]);
    line(c, [last - known, last].map((at) => [X(at), box.top]), theme.meets, 3);
    c.setLineDash([]);
  }
  for (const part of ["u", "v"]) {
    line(c, samples.map((sample) => [X(sample.generation), Y(sample[part])]), theme[part], 2);
  }
}
