// The numbers of a flow, each with a test that knows it from elsewhere (tests/page/model.mjs), and numbers as texts.
import { GASES } from "./gases.js";

const FEW = 100; // particles that are no fluid
const RING = 40; // generations after which a burst is a ring
export const MOST_MACH = 0.4; // above it the density follows the speed
const signed = (text) => text.replace(/^-(?=.*[1-9])/, "−").replace("-", "");
export const count = (whole) => String(whole).replace(/\B(?=(\d{3})+$)/g, ","); // Intl takes long to begin
export const fixed = (value, digits) => signed(value.toFixed(digits));
export const round = (value, digits = 3) => signed(String(Math.abs(value) < 1e-9 ? 0 : Number(value.toPrecision(digits))));

/**
 * Boltzmann's shear viscosity, (1 / lambda - 1/2) / 4: collisions undo the share lambda of a shear in a generation. It
 * has an imaginary part if all pairs rotate to one side (Frisch and others, Complex Systems 1 (1987) 649).
 */
export function viscosity({ share }, d, chirality) {
  const pairs = d * (1 - d) ** 3, re = share(d) * pairs;
  const im = chirality === "seeded" ? 0 : Math.sqrt(3) * pairs;
  return (re / (re * re + im * im) - 1 / 2) / 4;
}

/** The factor of u grad u in the momentum equation (the same source). */
const galilean = (directions, d) => ((directions / 12) * (1 - 2 * d)) / (1 - d);
export const STREET = 0.25; // the Strouhal number of a street
export const strouhal = (length, period, g, speed) => length / (period * g * speed);

/**
 * The speed at which the ring of a burst of this radius grows, where its filling falls to half outside of its crest. Null if
 * there is none, or another field is shown. @param {Frame} frame @param {number} radius
 */
export function frontOf({ field, pixels, columns, rows, width, height, apart, block, blockRows, generation, direction }, radius) {
  const sums = /** @type {number[][]} */ ([]), middle = [width / 2, ((height - 1) * apart) / 2], most = Math.min(...middle);
  for (let i = 0; i < columns * rows; i++) {
    const x = ((i % columns) + 0.5) * block - middle[0], y = (Math.floor(i / columns) + 0.5) * blockRows * apart - middle[1];
    const ring = (sums[Math.round(Math.hypot(x, y) / block)] ??= [0, 0]);
    ring[0] += pixels[i];
    ring[1]++;
  }
  const means = Array.from(sums, (ring) => (ring ? ring[0] / ring[1] - 128 : 0)).slice(0, Math.floor(most / block));
  const crest = means.indexOf(Math.max(...means)), half = means[crest] / 2, out = means.findIndex((mean, k) => k > crest && mean < half);
  const isRing = generation > RING && generation < 1.2 * (most - radius); // before it meets a wall
  if (field !== "density" || !isRing || out < 0 || direction < 0) return null;
  return ((out - (half - means[out]) / (means[out - 1] - means[out])) * block - radius) / generation;
}

/** The speed of rows as a part of the mean, the rows in their middles, and the fastest of them. @param {Frame} frame */
export function profileOf({ height, velocity: { columns, rows, u, height: tall } }) {
  const ends = Array.from({ length: rows + 1 }, (_, k) => Math.min(height, k * tall)), of = (make) => ends.slice(1).map((end, k) => make(k, ends[k], end));
  const speeds = of((k) => u.slice(k * columns, (k + 1) * columns).reduce((a, b) => a + b, 0) / columns);
  const mean = of((k, from, to) => speeds[k] * (to - from)).reduce((a, b) => a + b, 0) / height, means = speeds.map((speed) => speed / mean);
  return { means, middles: of((_, from, to) => (from + to) / 2), fastest: Math.max(...means) };
}

/**
 * What is known of a flow, in which numbers that a gas does not have are undefined. @param {number} length of Reynolds
 * @returns {{ filling: number, speed: number, mach: number, fastestMach: number, g?: number, nu?: number, reynolds?: number,
 *   isCorrelated?: boolean, turnover?: number, warnings: string[] }}
 */
export function numbersOf({ gas, directions, particles, fluid, u, v, chirality, fastest }, length) {
  const filling = particles / fluid / directions, speed = Math.hypot(u, v), { sound, fluid: kind } = GASES[gas], warnings = [];
  const found = { filling, speed, mach: speed / sound, fastestMach: fastest / sound, warnings };
  if (found.fastestMach > MOST_MACH) {
    const fast = `Mach ${found.fastestMach.toFixed(2)} in the fastest block`;
    warnings.push(`${fast}: above ${MOST_MACH} the gas is no incompressible fluid.`);
  }
  if (!kind) warnings.push(`${gas} is no fluid: it has no viscosity and no Reynolds number.`);
  if (!kind || particles < FEW || !(filling > 0.01 && filling < 0.99)) return found;
  const g = galilean(directions, filling), nu = viscosity(kind, filling, chirality), carried = Math.abs(g) * speed;
  const [low, high] = kind.correlated[chirality === "right" ? "left" : chirality];
  const isCorrelated = low < filling && filling < high, more = "more viscous than ν by a tenth or more";
  if (isCorrelated) warnings.push(`At this filling ${gas} is measured to be ${more}, so Reynolds is too high.`);
  const reynolds = length > 0 ? (carried * length) / nu : undefined, turnover = carried ? length / carried : undefined;
  return { ...found, isCorrelated, g, nu, reynolds, turnover };
}
