// What the page is sent of a flow: numbers, a field, the cells of a window, the probe.
import { FIELDS, TimeMean } from "./fields.js";
import { Flow } from "./flow.js";
import { SOLID, velocities } from "./gases.js";
import { copied } from "./kernel.js";
import { blocks, keyStream } from "./keystream.js";
import { lengthsOf } from "./lengths.js";
import { MeanVelocity } from "./velocity.js";
import { sumsOf } from "./sums.js";
import { flipOne } from "./tools.js";

const SHARE = 0.03; // of the time that entropies take at most

/** A flow as it is looked at. */
export class Watched {
  twin = /** @type {Flow | null} */ (null); // the same gas in which no particle was flipped
  disc = /** @type {{ at: Place, places: number[] } | null} */ (null); // the disc of the probe
  lengths = ""; // what was drawn
  direction = 1; // of the means
  cone = /** @type {Place | null} */ (null); // where a particle was flipped, to be compared
  due = 0; // when the next entropy may be counted

  /** @param {Flow} flow */
  constructor(flow) {
    this.flow = flow;
    this.mean = new TimeMean(flow.gas, flow.cells.height);
    this.velocity = new MeanVelocity(flow);
  }

  /** Flips a particle, and returns what undoes it. The gas without this flip goes on beside, to be compared. */
  flip(make, at) {
    const { kernel, chirality, seed, generation, drive, direction } = this.flow;
    if (direction > 0) {
      this.twin = new Flow(copied(kernel, make), { chirality, seed, generation, wind: drive.wind });
      this.twin.drive.random = drive.random;
      this.cone = at;
    }
    return flipOne(this.flow, at);
  }

  /** After a change that ended the comparison: another particle is flipped at the same place, once time runs forwards. */
  renew(make) {
    const { flow, twin, cone } = this;
    if (twin || !cone) return;
    if (flow.direction > 0) {
      this.flip(make, cone);
      flow.notes.splice(-1, 1, "The gas was changed, so another particle was turned, and the cone begins anew.");
    } else if (flow.mark) {
      flow.mark = null;
      flow.notes.push("On the way back nothing is compared: the cone begins anew once time runs forwards.");
    }
  }

  advance(generations) {
    this.flow.advance(generations);
    this.twin?.advance(generations);
  }

  /** How many cells of each block differ from the twin, as sums of particles. */
  differences(wide, tall) {
    if (!this.twin) return null;
    const { kernel: { width, height, per, solid }, cells } = this.flow, gas = { directions: 1, momenta: [[0, 0]] };
    return sumsOf({ width, height, per, solid, gas, cells: cells.difference(this.twin.kernel) }, wide, tall).numbers;
  }

  probe({ at, radius }) {
    this.disc = { at, places: this.flow.cells.near(at, at, radius) };
  }

  get probed() {
    if (!this.disc) return null;
    const speeds = velocities(this.flow.gas), { at, places } = this.disc, sums = [0, 0, 0];
    for (const place of places) {
      const state = this.flow.cells.state(place) & ~SOLID;
      for (let i = 0; state >> i; i++) if (state >> i & 1) [1, ...speeds[i]].forEach((part, k) => (sums[k] += part));
    }
    return { at, u: sums[1] / (sums[0] || 1), v: sums[2] / (sums[0] || 1) };
  }

  /** The states of the cells of a window, as far as it is in the lattice, and the same after their collision. */
  windowed([left, top, wide, tall]) {
    const { cells, chirality, seed, sceneGeneration, sides } = this.flow, x0 = Math.max(0, left), y0 = Math.max(0, top);
    const width = Math.min(cells.width, left + wide) - x0, height = Math.min(cells.height, top + tall) - y0;
    if (width < 1 || height < 1) return null;
    const words = Math.ceil(cells.width / 32), bits = blocks(words * cells.height);
    if (chirality === "seeded") keyStream(seed, sceneGeneration, bits);
    else bits.fill(chirality === "left" ? -1 : 0);
    const before = new Uint8Array(width * height), after = before.map((_, to) => {
      const x = x0 + (to % width), y = y0 + Math.floor(to / width), isLeft = bits[y * words + (x >> 5)] >>> x & 1;
      before[to] = cells.state(y * cells.width + x);
      return (isLeft ? sides.left : sides.right)[before[to]];
    });
    return { x: x0, y: y0, width, height, before, after };
  }

  /** The entropy of cells that rest or have come back, and of others if it is due. */
  entropy(isMoving) {
    const begun = performance.now();
    if (isMoving && begun < this.due) return null;
    const { entropy } = this.flow, end = performance.now();
    this.due = end + (end - begun) / SHARE;
    return entropy;
  }

  /** The means over blocks and time of what is looked at. */
  means({ smooth, span, field }, generations, sums) {
    const { mean } = this;
    mean.add(sums, span > 1 ? Math.exp(-generations / span) : 0);
    mean.look(FIELDS[field].isByRows ? 0 : smooth);
    mean.unlike = field === "difference" ? this.differences(sums.width, sums.height) : null;
    return mean;
  }

  frame(view, generations) {
    const { flow, velocity } = this, { gas, cells, kernel, drive, history, chirality, generation } = flow;
    const { direction, found, canReverse, mark, notes, shape } = flow, walls = cells.isBuilt ? kernel.solid.slice() : null;
    if (direction !== this.direction) [this.mean, velocity.mean].forEach((mean) => mean.reverse());
    this.direction = direction;
    if (walls) {
      velocity.look();
      this.lengths = shape ? lengthsOf(walls, shape) : "";
    }
    const sums = flow.sums(view.block, FIELDS[view.field].isByRows ? 1 : flow.tall(view.block));
    if (generations || !velocity.generations) velocity.add(generations, sums);
    const mean = this.means(view, generations, sums), [fluid, particles, px, py] = flow.totals(), all = particles || 1;
    const [blown, force] = direction > 0 ? [drive.velocity, drive.force] : [null, null];
    const { columns, rows, width, height, u, v } = velocity.mean, { fastest, blockage, incoming } = velocity;
    cells.isBuilt = false;
    flow.notes = [];
    return {
      gas: gas.name, apart: gas.apart, directions: gas.directions, width: cells.width, height: cells.height,
      per: kernel.per, chirality, generation, direction, found, canReverse, mark, notes, fluid, particles,
      origin: history.origin.generation, isCut: history.isCut,
      // means over time, before particles are flipped, and of the momentum that is added per fluid cell and generation
      u: blown ?? (px * gas.units[0]) / all, force,
      v: (py * gas.units[1]) / all, wind: drive.wind,
      fastest, blockage, incoming, velocity: { columns, rows, width, height, u, v },
      noise: mean.noise, unlike: this.twin && mean.unlike ? cells.differing(this.twin.kernel) : null,
      field: view.field, ...mean.shown(view.field), middle: mean.middle, columns: mean.columns, rows: mean.rows,
      block: mean.width, blockRows: mean.height, cells: view.window && this.windowed(view.window),
      walls, // solid cells as a plane, if they changed
      lengths: this.lengths, probe: this.probed,
      entropy: view.hasEntropy ? this.entropy(generations > 0 && found === null) : null, way: flow.way,
      stripe: flow.stripe?.() ?? [],
    };
  }
}
