// Fields of the fluid: means over blocks and over time, and what is shown of them.

/** 256 colours between stops, as words of their bytes. Colour 0 is of solid blocks. */
function palette(text) {
  const stops = text.split(" ").map((stop) => [0, 2, 4].map((at) => parseInt(stop.slice(at, at + 2), 16)));
  return Int32Array.from({ length: 256 }, (_, i) => {
    const at = ((i - 1) / 254) * (stops.length - 1), k = Math.max(0, Math.min(stops.length - 2, Math.floor(at)));
    const [r, g, b] = i ? stops[k].map((low, c) => Math.round(low + (at - k) * (stops[k + 1][c] - low))) : [70, 78, 86];
    return (255 << 24) | (b << 16) | (g << 8) | r;
  });
}

// Colours that colour-blind readers can tell apart: viridis, RdBu, PuOr, and the last two on dark.
const SEQUENTIAL = [palette("440154 482878 3e4989 31688e 26828e 1f9e89 35b779 6ece58 b5de2b fde725")];
const RED_BLUE = [palette("053061 2166ac 4393c3 92c5de d1e5f0 f7f7f7 fddbc7 f4a582 d6604d b2182b 67001f"),
  palette("9eb0ff 72a5e8 3c87bf 2a5f85 183a50 12181f 351508 5f2410 91442c c8725f ffacac")];
const ORANGE_PURPLE = [palette("2d004b 542788 8073ac b2abd2 d8daeb f7f7f7 fee0b6 fdb863 e08214 b35806 7f3b08"),
  palette("d8b8f5 a98bd6 7c62ad 513f78 2c2444 16161c 33220f 5e3d12 905f17 c68a2f ffc46b")];
const APART = 4, SAMPLES = 4000; // blocks of TimeMean.noise

/**
 * All that there is of each field: `fill` writes the value of each block, NaN if it has none; `most` is the largest value, if
 * there is one; `isByRows` that blocks are one row high.
 * @type {Record<string, { key: string, legend: string, palette: Int32Array[], fill: (means: TimeMean, out: Float64Array) => void,
 *   isSigned?: boolean, isByRows?: boolean, most?: number }>}
 */
export const FIELDS = {
  speed: { key: "1", legend: "speed |u|, cells per generation", palette: SEQUENTIAL, fill: speed },
  vorticity: { key: "2", legend: "vorticity, 1/generation: red anticlockwise", palette: RED_BLUE, fill: vorticity, isSigned: true },
  difference: { key: "6", legend: "cells that differ from the gas without the turn", palette: SEQUENTIAL, fill: difference, most: 1 },
  momentum: { key: ",", legend: "momentum eastwards per cell, by rows", palette: RED_BLUE, fill: momentum, isSigned: true, isByRows: true },
  density: { key: "3", legend: "filling d, from its mean", palette: ORANGE_PURPLE, fill: density, isSigned: true },
};

function speed({ u, v }, out) {
  for (let i = 0; i < out.length; i++) out[i] = Math.sqrt(u[i] * u[i] + v[i] * v[i]);
}

function momentum({ parts, gas: { units } }, out) {
  const [cells, , px] = parts;
  for (let i = 0; i < out.length; i++) out[i] = cells[i] ? (px[i] * units[0]) / cells[i] : NaN;
}

function difference({ unlike, parts }, out) {
  const [cells] = parts;
  for (let i = 0; i < out.length; i++) out[i] = cells[i] ? (unlike?.[4 * i + 1] ?? 0) / cells[i] : NaN;
}

/** dv/dx - du/dy by differences of neighbouring blocks, of one side if the other is solid, empty or past a wall. */
function vorticity({ columns, rows, width, height, gas: { apart }, tall, u, v }, out) {
  const middle = (y) => ((y * height + Math.min(tall, (y + 1) * height) - 1) / 2) * apart;
  for (let y = 0, i = 0; y < rows; y++) {
    const up = middle(y) - middle(y - 1), below = middle(y + 1) - middle(y);
    for (let x = 0; x < columns; x++, i++) {
      const east = v[x < columns - 1 ? i + 1 : i + 1 - columns], west = v[x ? i - 1 : i - 1 + columns];
      const north = y ? u[i - columns] : NaN, south = y < rows - 1 ? u[i + columns] : NaN;
      const hasEast = east === east, hasWest = west === west, hasNorth = north === north, hasSouth = south === south;
      const across = (hasEast ? width : 0) + (hasWest ? width : 0), down = (hasNorth ? up : 0) + (hasSouth ? below : 0);
      const dv = (hasEast ? east : v[i]) - (hasWest ? west : v[i]);
      const du = (hasNorth ? north : u[i]) - (hasSouth ? south : u[i]);
      out[i] = u[i] === u[i] ? (across && dv / across) - (down && du / down) : NaN;
    }
  }
}

function density(means, out) {
  const { parts: [cells, particles], gas: { directions }, middle } = means;
  const [fluid, counts] = [cells, particles].map((part) => means.smoothed(part));
  for (let i = 0; i < out.length; i++) out[i] = cells[i] ? counts[i] / fluid[i] / directions - middle : NaN;
}

/** Weights 1, 2, 1 in both directions, round the end. Loops of numbers take half as long as `map`. */
function smoothen(part, across, columns, rows) {
  for (let y = 0, i = 0; y < rows; y++) {
    const first = part[i], east = i + columns - 1;
    let before = part[east], here = first;
    for (; i < east; i++) {
      const next = part[i + 1];
      across[i] = before + 2 * here + next;
      before = here;
      here = next;
    }
    across[i++] = before + 2 * here + first;
  }
  for (let y = 0, i = 0; y < rows; y++) {
    const north = y ? -columns : 0, south = y < rows - 1 ? columns : 0;
    for (let x = 0; x < columns; x++, i++) part[i] = (across[i + north] + 2 * across[i] + across[i + south]) / 16;
  }
}

/** A round number above nearly all values, which changes only if it is far off. */
function rangeOf(values, kept) {
  const step = Math.floor(values.length / 1000) | 1, sizes = [];
  for (let i = 0; i < values.length; i += step) if (values[i] === values[i]) sizes.push(Math.abs(values[i]));
  const found = Math.max(1e-4, Float32Array.from(sizes).sort()[Math.floor(0.985 * sizes.length)] ?? 0);
  if (kept !== undefined && kept * 0.35 < found && found < kept * 1.15) return kept;
  const power = 10 ** Math.floor(Math.log10(found));
  return ([1, 1.5, 2, 3, 4, 5, 6, 8, 10].find((k) => k * power >= 0.999 * found) ?? 10) * power;
}

/** Means of a flow over time, of blocks of width x height cells by rows from the top. They are made once for a size. */
export class TimeMean {
  columns = 0;
  rows = 0;
  width = 1;
  height = 1;
  middle = 0; // the mean filling
  times = 0; // that the parts are smoothed
  parts = /** @type {Float64Array[]} */ ([]); // fluid cells, particles, momenta
  smooth = /** @type {Map<Float64Array, Float64Array>} */ (new Map()); // the same, smoothed, made when they are needed
  across = new Float64Array(0); // that smoothing writes to
  values = new Float64Array(0); // of the field that is shown
  u = this.values;
  v = this.u;
  pixels = new Uint8Array(0);
  unlike = /** @type {Int32Array | null} */ (null); // the sums of the cells that differ from a twin
  ranges = /** @type {Record<string, number>} */ ({}); // the largest value of each field's colours

  /** @param {Gas} gas @param {number} tall the height of the lattice */
  constructor(gas, tall) {
    this.gas = gas;
    this.tall = tall;
  }

  /** Takes sums into the mean, which keeps this part of what it was. */
  add({ columns, rows, width, height, numbers }, kept) {
    const isNew = columns !== this.columns || rows !== this.rows, memory = isNew ? 0 : kept, weight = 1 - memory;
    Object.assign(this, { columns, rows, width, height });
    if (isNew) {
      [this.u, this.v, this.values, this.across, ...this.parts] = Array(8).fill(0).map(() => new Float64Array(columns * rows));
      this.smooth.clear();
      this.pixels = new Uint8Array(columns * rows);
    }
    const [cells, particles, px, py] = this.parts;
    let [allCells, all] = [0, 0];
    for (let i = 0, at = 0; i < cells.length; i++, at += 4) {
      allCells += cells[i] = memory * cells[i] + weight * numbers[at];
      all += particles[i] = memory * particles[i] + weight * numbers[at + 1];
      px[i] = memory * px[i] + weight * numbers[at + 2];
      py[i] = memory * py[i] + weight * numbers[at + 3];
    }
    this.middle = all / allCells / this.gas.directions;
  }

  /** All particles were reversed, and what was measured of them is reversed too. */
  reverse() {
    for (const part of [...this.parts.slice(2), this.u, this.v]) part.forEach((value, i) => (part[i] = -value));
  }

  smoothed(part) {
    const { smooth, across, columns, rows, times } = this, made = smooth.get(part) ?? new Float64Array(part.length);
    if (!times) return part;
    smooth.set(part, made);
    made.set(part);
    for (let time = 0; time < times; time++) smoothen(made, across, columns, rows);
    return made;
  }

  /** Finds the velocity of the blocks, smoothed some times. It is NaN if one is solid or empty. */
  look(times) {
    this.times = times;
    const { gas: { units: [east, north] }, parts: [cells, ...others], u, v } = this;
    const [counts, px, py] = others.map((part) => this.smoothed(part));
    for (let i = 0; i < u.length; i++) {
      const isEmpty = !cells[i] || !counts[i];
      u[i] = isEmpty ? NaN : (px[i] * east) / counts[i];
      v[i] = isEmpty ? NaN : (py[i] * north) / counts[i];
    }
  }

  /** The standard deviation of v, by blocks that are apart, so that an even flow adds nothing. Null if they are too few. */
  get noise() {
    const { v, columns } = this, step = Math.floor(v.length / SAMPLES) | 1;
    let sum = 0, number = 0;
    for (let i = APART; i < v.length - APART; i += step) {
      const unlike = v[i - APART] - 2 * v[i] + v[i + APART];
      if (unlike !== unlike) continue;
      sum += unlike * unlike;
      number++;
    }
    return number && columns > 4 * APART ? Math.sqrt(sum / 6 / number) : null;
  }

  /** What is shown of a field: a byte per block, 0 if it is solid, and the largest value of the colours. */
  shown(name) {
    const { fill, isSigned, most: all } = FIELDS[name], { pixels, values } = this;
    fill(this, values);
    const most = (this.ranges[name] = all ?? rangeOf(values, this.ranges[name]));
    const zero = isSigned ? 128 : 1, scale = (isSigned ? 127 : 254) / most;
    for (let i = 0; i < values.length; i++) {
      const colour = zero + scale * values[i];
      pixels[i] = colour < 1 ? 1 : colour > 255 ? 255 : colour; // NaN becomes 0
    }
    return { pixels, most };
  }
}
