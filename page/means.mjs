// Runs flows until they are developed, and keeps their means for new starts in page/src/means.js:  node page/means.mjs
import { writeFileSync } from "node:fs";
import { maker } from "./built.mjs";
import { meansText, sumsOf } from "./src/developed.js";
import { Experiment } from "./src/experiment.js";
import { PRESETS } from "./src/presets.js";

const EVERY = 20; // generations from one measurement to the next
// presets, the windows for which they are, and after how many generations, of which the last so many are measured
const FLOWS = [["vortex street", "", 36000, 300], ["vortex street", "upright", 24000, 120], ["flow past a plate", "", 20000, 120],
  ["flow past a plate", "upright", 20000, 120], ["flow past a plate", "flat", 20000, 120]];

const make = await maker();

function measured([name, fitting, generations, last]) {
  const { gases: [gas], shapes: [shape], chirality, wind, radius, keep, size, fill: filling } = { ...PRESETS[name], ...PRESETS[name][fitting] };
  const experiment = Object.assign(new Experiment(), { make });
  const [width, height] = size.split(" x ").map(Number), start = { gas, shape, chirality, width, height, filling, wind, radius, keep };
  experiment.start({ starts: [{ ...start, seed: "1" }], state: "" });
  const [{ flow }] = experiment.watched;
  flow.advance(generations - last);
  const sums = sumsOf(flow), total = { numbers: new Float64Array(sums.numbers.length) };
  for (let g = 0; g < last; g += EVERY) {
    flow.advance(EVERY);
    sumsOf(flow).numbers.forEach((number, k) => (total.numbers[k] += number));
  }
  return `  ${JSON.stringify({ ...start, text: meansText(total, flow.gas, filling) })},\n`;
}

const head = "// Means of developed flows, which `node page/means.mjs` measures.\n";
writeFileSync(new URL("src/means.js", import.meta.url), `${head}export const MEANS = [\n${FLOWS.map(measured).join("")}];\n`);
