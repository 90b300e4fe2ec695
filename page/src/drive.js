// The drive: in every generation particles are flipped from west to east until the mean velocity is the wind. What it does
// therefore does not depend on how many generations a frame has. Every fluid cell has the same share of the force.

const MEMORY = 1000; // generations of a mean over time

export class Drive {
  wind = /** @type {number | null} */ (null);
  count = 0; // of generations with this wind, and means over the last of them
  velocity = /** @type {number | null} */ (null); // of the particles before some are flipped
  force = /** @type {number | null} */ (null); // momentum that was added per fluid cell and generation
  fluid = 0;
  particles = 0;
  px = 0;

  /** @param {number | null} wind cells per generation that the flow keeps, or null if it decays @param {string} seed */
  constructor(wind, seed) {
    this.random = Number(BigInt(seed) % 0xfffffffbn) + 1 | 0;
    this.keep(wind);
  }

  keep(wind) {
    Object.assign(this, { wind, count: 0, velocity: null, force: null });
  }

  /** A random number below 1, by xorshift. */
  draw = () => {
    let random = this.random;
    random ^= random << 13;
    random ^= random >>> 17;
    random ^= random << 5;
    this.random = random;
    return (random >>> 0) / 2 ** 32;
  };

  /** Some generations of a flow, whose momentum then only walls and the drive change. */
  blow(flow, generations) {
    [this.fluid, this.particles, this.px] = flow.totals();
    for (let left = generations - 1; left >= 0; left--) {
      flow.run(1);
      if (this.act(flow)) continue;
      flow.notes.push("The wind is not kept any more: no particle is left that could be turned.");
      this.keep(null);
      return flow.run(left);
    }
  }

  /** Brings a flow to the wind. Returns whether there were particles to flip. */
  act(flow) {
    const { cells, kernel, gas: { units: [unit], momenta: [[east]], opposite: [west] } } = flow;
    this.px += kernel.pushed();
    const wanted = ((this.wind ?? 0) * this.particles - this.px * unit) / 2, sign = Math.sign(wanted);
    const from = sign > 0 ? west : 0, steps = Math.round(Math.abs(wanted));
    const velocity = (this.px * unit) / (this.particles || 1), force = (2 * sign * steps) / this.fluid;
    for (let kick = 0; kick < steps; kick++) {
      const at = cells.pick(this.draw, from, west - from);
      if (at === undefined) return false;
      flow.flip(at, 1 | 1 << west);
    }
    this.px += 2 * east * sign * steps;
    const part = 1 / Math.min(++this.count, MEMORY), moved = (mean, value) => (mean ?? 0) + part * (value - (mean ?? 0));
    Object.assign(this, { velocity: moved(this.velocity, velocity), force: moved(this.force, force) });
    return true;
  }
}
