// A stripe of rows: how much of its particles, and of its momentum eastwards, is still in them.
import { sumsOf, totalsOf } from "./sums.js";

/** Returns what they are now as parts of what they were first. @param {Flow} flow @param {number} first @param {number} rows */
export function stripeOf(flow, first, rows) {
  const sums = () => {
    const { direction, kernel: { cells, solid, per, width, gas } } = flow, [from, above] = [first * gas.directions * per, first * per];
    const planes = { cells: cells.subarray(from), solid: solid.subarray(above), per, width, height: rows, gas };
    const [, particles, momentum] = totalsOf(sumsOf(planes, 32, rows));
    return [particles, direction * momentum];
  };
  const begun = sums();
  return () => sums().map((sum, k) => sum / begun[k]);
}
