// Developed flows: means of blocks, a letter each, from which a start is drawn that needs no time to form.
import { SOLID, equilibrium } from "./gases.js";
import { MEANS } from "./means.js";
import { LETTERS } from "./message.js";
import { gathered } from "./sums.js";

const LONG = 2048; // columns of a lattice whose blocks are larger
const blockOf = (width) => (width > LONG ? [64, 72] : [32, 36]); // columns and rows
const STEPS = [0.004, 0.02, 0.02]; // of the filling above that of all, and of the velocity
const ZERO = 32; // the letter of 0
/** The sums of the blocks of a flow. @param {Flow} flow */
export const sumsOf = (flow) => /** @type {any} */ (gathered(flow.sums(32, 36), ...blockOf(flow.cells.width)));

export function meansText({ numbers }, { directions, units }, filling) {
  let text = "";
  for (let at = 0; at < numbers.length; at += 4) {
    const [cells, particles, px, py] = numbers.slice(at, at + 4), all = particles || 1;
    const means = [cells && particles / cells / directions - filling, (px * units[0]) / all, (py * units[1]) / all];
    means.forEach((mean, k) => (text += LETTERS[Math.max(0, Math.min(63, ZERO + Math.round(mean / STEPS[k])))]));
  }
  return text;
}

/** The means of the flow that begins as a start does, if they are kept. */
export const meansOf = (start) => MEANS.find(({ text, ...flow }) => Object.keys(flow).every((key) => flow[key] === start[key]));

/** Draws the fluid cells of a lattice from the equilibria of the blocks. */
export function fillDeveloped({ gas, drive, cells: { width } }, states, { text, filling }) {
  const [wide, tall] = blockOf(width), columns = Math.ceil(width / wide), { directions } = gas, chances = [];
  for (let at = 0; at < text.length; at += 3) {
    const [more, u, v] = STEPS.map((step, k) => step * (LETTERS.indexOf(text[at + k]) - ZERO));
    chances.push(equilibrium(gas, filling + more, u, v));
  }
  for (let first = 0; first < states.length; first += wide) {
    const y = Math.floor(first / width), here = chances[Math.floor(y / tall) * columns + (first % width) / wide];
    for (let at = first; at < first + wide; at++) {
      if (states[at] !== SOLID) for (let i = 0; i < directions; i++) if (drive.draw() < here[i]) states[at] |= 1 << i;
    }
  }
}
