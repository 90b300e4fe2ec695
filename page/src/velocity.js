// The mean velocity, on blocks of its own, whatever is shown: it carries the tracers, and the fastest block and the
// speed that meets an obstacle are read from it.
import { TimeMean } from "./fields.js";
import { gathered } from "./sums.js";

const MEMORY = 300; // generations of the mean
const STEP = 20; // generations from one measurement to the next
const MOST_BLOCKS = 4000;

export class MeanVelocity {
  generations = 0; // that the mean has seen
  waiting = 0; // generations that it has not
  fastest = 0;
  blockage = 0; // the solid part of the highest column
  box = /** @type {{ west: number, top: number, bottom: number } | null} */ (null); // of one obstacle

  /** @param {Flow} flow */
  constructor(flow) {
    const { cells: { number, height }, gas } = flow;
    this.flow = flow;
    this.mean = new TimeMean(gas, height);
    this.block = [4, 8, 16].find((block) => (number * gas.apart) / block ** 2 < MOST_BLOCKS) ?? 32;
    this.look();
  }

  /** Looks at the obstacles: the highest column, and the box of all. */
  look() {
    const { kernel: { solid, per }, cells: { width, height } } = this.flow, tall = new Uint32Array(width);
    let top = height, bottom = -1;
    for (let at = 0; at < solid.length; at++) {
      if (!solid[at]) continue;
      bottom = Math.floor(at / per);
      top = Math.min(top, bottom);
      for (let bit = 0; bit < 32; bit++) tall[32 * (at % per) + bit] += solid[at] >>> bit & 1;
    }
    const west = tall.findIndex(Boolean), east = width - 1 - tall.slice().reverse().findIndex(Boolean);
    this.blockage = tall.reduce((a, b) => Math.max(a, b)) / height;
    this.box = bottom < 0 || east - west > width / 3 ? null : { west, top, bottom };
  }

  /** Measures the flow again, but not for a few generations, from sums of the cells as they are. */
  add(gone, sums) {
    const { flow, mean, block } = this, tall = flow.tall(block), generations = this.waiting + gone;
    this.waiting = this.generations && generations < STEP ? generations : 0;
    if (this.waiting) return;
    this.generations += generations;
    const memory = Math.min(MEMORY, Math.max(1, this.generations));
    mean.add(gathered(sums, block, tall) ?? flow.sums(block, tall), Math.exp(-generations / memory));
    mean.look(1);
    const speeds = mean.u.map((u, i) => u * u + mean.v[i] ** 2 || 0);
    this.fastest = Math.sqrt(speeds.reduce((a, b) => Math.max(a, b)));
  }

  /** The speed over an obstacle's height, one to two heights ahead of it, or null if there is not one obstacle. */
  get incoming() {
    const { box, mean: { columns, rows, width, height, u } } = this, inside = [];
    if (!box || !columns) return null;
    const size = (box.bottom - box.top + 1) * this.flow.gas.apart;
    const [first, last] = [2, 1].map((part) => Math.floor((box.west - part * size) / width));
    for (let y = Math.floor(box.top / height); y <= Math.floor(box.bottom / height); y++) {
      for (let x = first; x <= last; x++) {
        const value = u[Math.min(rows - 1, y) * columns + (((x % columns) + columns) % columns)];
        if (value === value) inside.push(value);
      }
    }
    return inside.length ? inside.reduce((a, b) => a + b, 0) / inside.length : null;
  }
}
