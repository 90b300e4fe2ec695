// The cells of a lattice, one by one: places, states and edits on a kernel's planes.
import { SOLID, eastOf } from "./gases.js";
import { bits } from "./sums.js";

export class Cells {
  /** @param {Kernel} kernel */
  constructor(kernel) {
    this.kernel = kernel;
    this.gas = kernel.gas;
    this.width = kernel.width;
    this.height = kernel.height;
    this.number = kernel.width * kernel.height;
    this.isBuilt = true; // solid cells have changed
  }

  /** The state of a cell. Cells are numbered by rows from the top. */
  state(at) {
    const { kernel: { cells, solid, per }, width, gas: { directions } } = this;
    const y = Math.floor(at / width), x = at - y * width, word = x >> 5, bit = x & 31;
    if (solid[y * per + word] >>> bit & 1) return SOLID;
    let state = 0;
    for (let i = 0; i < directions; i++) state |= (cells[(y * directions + i) * per + word] >>> bit & 1) << i;
    return state;
  }

  isSolid(at) {
    const { kernel: { solid, per }, width } = this, y = Math.floor(at / width), x = at - y * width;
    return (solid[y * per + (x >> 5)] >>> x & 1) > 0;
  }

  has(at, i) {
    const { cells, per, width, gas: { directions } } = this.kernel, y = Math.floor(at / width), x = at - y * width;
    return (cells[(y * directions + i) * per + (x >> 5)] >>> x & 1) > 0;
  }

  states() {
    const { kernel, kernel: { bytes }, gas: { directions } } = this;
    kernel.unpack(1, kernel.walls);
    const solid = bytes.slice();
    kernel.unpack(directions, kernel.states);
    return bytes.map((state, at) => (solid[at] ? SOLID : state));
  }

  flip(at, bits) {
    const { kernel: { cells, solid, per }, width, gas: { directions } } = this;
    const y = Math.floor(at / width), x = at - y * width, word = x >> 5, mask = 1 << (x & 31);
    if (bits & SOLID) {
      solid[y * per + word] ^= mask;
      this.isBuilt = true;
    }
    for (let i = 0; i < directions; i++) if (bits >> i & 1) cells[(y * directions + i) * per + word] ^= mask;
  }

  fill(states) {
    const { kernel, kernel: { bytes }, gas: { directions } } = this;
    for (let at = 0; at < states.length; at++) bytes[at] = states[at] >> 7; // solid or not
    kernel.pack(1, kernel.walls);
    for (let at = 0; at < states.length; at++) bytes[at] = states[at] & ~SOLID;
    kernel.pack(directions, kernel.states);
  }

  kept() {
    return { cells: this.kernel.cells.slice(), solid: this.kernel.solid.slice() };
  }

  /** A plane of the cells that differ from a copy. */
  difference(kept) {
    const { kernel: { cells, solid, per }, gas: { directions } } = this;
    return solid.map((word, k) => {
      const first = Math.floor(k / per) * directions * per + k % per, end = first + directions * per;
      let unlike = word ^ kept.solid[k];
      for (let at = first; at < end; at += per) unlike |= cells[at] ^ kept.cells[at];
      return unlike;
    });
  }

  differing(kept) {
    return this.difference(kept).reduce((sum, word) => sum + bits(word), 0);
  }

  placeOf(at) {
    const row = Math.floor(at / this.width);
    return [at - row * this.width + eastOf(this.gas, row), row * this.gas.apart];
  }

  /** The cells within a radius of a line from one place to another. */
  near([x0, y0], [x1, y1], radius) {
    const { width, height, gas } = this, dx = x1 - x0, dy = y1 - y0, found = [];
    const first = Math.max(0, Math.floor((Math.min(y0, y1) - radius) / gas.apart));
    const last = Math.min(height - 1, Math.ceil((Math.max(y0, y1) + radius) / gas.apart));
    const west = Math.floor(Math.min(x0, x1) - radius - 1), east = Math.ceil(Math.max(x0, x1) + radius);
    for (let row = first; row <= last; row++) {
      for (let x = west; x <= Math.min(east, west + width - 1); x++) {
        const px = x + eastOf(gas, row) - x0, py = row * gas.apart - y0;
        const part = Math.max(0, Math.min(1, (px * dx + py * dy) / (dx * dx + dy * dy || 1)));
        if (Math.hypot(px - part * dx, py - part * dy) > radius) continue;
        found.push(row * width + (((x % width) + width) % width));
      }
    }
    return found;
  }

  around(at) {
    const { width, height } = this, row = Math.floor(at / width), column = at - row * width;
    const rows = [row - 1, row, row + 1].filter((y) => y >= 0 && y < height);
    return rows.flatMap((y) => [0, 1, width - 1].map((step) => y * width + (column + step) % width));
  }

  /**
   * What makes fluid cells solid, and solid ones fluid and empty: bits to flip by cell. Particles beneath go to the
   * nearest free places of their direction, ring by ring. Null if there is no room.
   * @param {number[]} places
   */
  rebuilt(places) {
    const before = new Map(places.map((at) => [at, this.state(at)])), reached = new Set(places), flips = new Map();
    before.forEach((state, at) => flips.set(at, state === SOLID ? SOLID : state ^ SOLID));
    const waiting = this.gas.momenta.map((_, i) => places.filter((at) => (before.get(at) ?? 0) >> i & 1).length);
    const moved = waiting.reduce((a, b) => a + b);
    let left = moved;
    for (const at of reached) {
      if (!left) break;
      const state = before.has(at) ? SOLID : this.state(at);
      let bits = 0;
      waiting.forEach((number, i) => {
        if (number && state < SOLID && !(state >> i & 1)) bits |= 1 << i;
      });
      for (let i = 0; bits >> i; i++) waiting[i] -= bits >> i & 1;
      left = waiting.reduce((a, b) => a + b);
      if (bits) flips.set(at, bits);
      this.around(at).forEach((near) => reached.add(near));
    }
    return left ? null : { flips, moved };
  }

  /**
   * From a random fluid cell on, to either side, the first with a particle in a direction and none in another, or
   * undefined: so the chance of a place does not depend on the flow there.
   */
  pick(lot, from, to, isOut = (at) => this.isSolid(at)) {
    const { number } = this, step = lot() < 0.5 ? 1 : number - 1;
    let at = Math.floor(lot() * number);
    for (let tries = 0; tries < 64 && isOut(at); tries++) at = Math.floor(lot() * number);
    for (let tries = 0; tries < number; tries++, at = (at + step) % number) {
      if (this.has(at, from) && (from === to || !this.has(at, to)) && !isOut(at)) return at;
    }
  }
}
