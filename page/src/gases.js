// The gases: one table, and what follows from it. docs/FORMATS.md has the rules. A state is a byte: a bit per
// direction, counterclockwise from east, the ones at rest last, or SOLID.
//
// PLANES. A lattice has a bit per direction and cell, 32 cells to a word. Each row has an even number of words, so the
// same memory is rows of 64 bits: the words of direction 0, then of direction 1, and so on, as in include/fhpgas.h.
export const SOLID = 0x80;
export const MOST_CELLS = 1 << 22; // of all lattices that are shown
const HEXAGON = [[2, 0], [1, 1], [-1, 1], [-2, 0], [-1, -1], [1, -1]], UNITS = [1 / 2, Math.sqrt(3) / 2];

/**
 * All that the page knows of each gas: its number in include/fhpgas.h, the momenta of its directions eastwards and
 * northwards, and their units. Of a fluid the share of a shear that collisions undo, as a multiple of d (1 - d)^3, and
 * where measured viscosities exceed Boltzmann's by more than a tenth, as python/fhpgas/theory.py has it.
 * @typedef {{ share: (d: number) => number, correlated: Record<string, number[]> }} Fluid
 * @type {Record<string, { number: number, label: string, rule: string, momenta: number[][], units: number[], fluid?: Fluid }>}
 */
const TABLE = {
  fhp1: { number: 0, label: "fhp1 (FHP-I)", rule: "six directions", momenta: HEXAGON, units: UNITS,
    fluid: { share: () => 3, correlated: { seeded: [0, 0.19], left: [0, 0.2] } } },
  "fhp-rest": { number: 2, label: "fhp-rest (FHP-II)", rule: "six and particles at rest", momenta: [...HEXAGON, [0, 0]],
    units: UNITS, fluid: { share: (d) => 7 - 4 * d, correlated: { seeded: [0.08, 0.65], left: [0.05, 0.65] } } },
  hpp: { number: 1, label: "HPP", rule: "four", momenta: [[1, 0], [0, 1], [-1, 0], [0, -1]], units: [1, 1] },
};

/** How far a row of a gas lies to the east. */
export const eastOf = ({ apart }, row) => (apart < 1 ? (row & 1) / 2 : 0);

/** What follows: among others the distance of rows, the speed of sound, and the opposite directions. */
function gasOf(name, row = TABLE[name]) {
  const { momenta, units: [east, apart] } = row, isHexagonal = apart < 1, directions = momenta.length;
  const sound = Math.sqrt(momenta.reduce((sum, [x]) => sum + (x * east) ** 2, 0) / directions);
  const opposite = momenta.map(([x, y]) => momenta.findIndex(([px, py]) => px === -x && py === -y));
  // rows down to the cell that a particle comes from, and the columns that it moves from an even and from an odd row
  const columns = (x, y) => [0, 1].map((odd) => x * east + eastOf({ apart }, odd) - eastOf({ apart }, odd + y));
  const moves = momenta.filter(([x, y]) => x || y).map(([x, y]) => [y, ...columns(x, y)]);
  return { ...row, name, directions, apart, isHexagonal, sound, opposite, moves };
}

/** @typedef {ReturnType<typeof gasOf>} Gas */
/** @type {Record<string, Gas>} the gases by their names */
export const GASES = Object.fromEntries(Object.keys(TABLE).map((name) => [name, gasOf(name)]));
/** @type {Record<Chirality, Chirality>} the chirality that undoes a collision. */
export const OTHER = { left: "right", right: "left", seeded: "seeded" };
/** The particles' velocities by direction, eastwards and northwards. */
export const velocities = ({ momenta, units }) => momenta.map(([x, y]) => [x * units[0], y * units[1]]);
/** What is made of every state. A solid cell stays. */
export const table = (ofState) => Uint8Array.from({ length: 256 }, (_, state) => (state < SOLID ? ofState(state) : state));

export const reversedStates = ({ opposite }) =>
  table((state) => opposite.reduce((reversed, to, i) => reversed | (state >> i & 1) << to, 0));

/** The chances of Fermi and Dirac at a filling and a velocity: h and q are changed until number and momentum fit. */
export function equilibrium(gas, filling, u = 0, v = 0) {
  const { directions } = gas, speeds = velocities(gas), all = directions * filling, chances = Array(directions).fill(0);
  let h = 0, qx = 0, qy = 0;
  for (let step = 0, error = 1; step < 2000 && error > 1e-12; step++) {
    let more = -all, px = -all * u, py = -all * v;
    for (let i = 0; i < directions; i++) {
      const [x, y] = speeds[i], chance = (chances[i] = 1 / (1 + Math.exp(h + qx * x + qy * y)));
      more += chance;
      px += chance * x;
      py += chance * y;
    }
    h += 4 * more / directions; // the slopes are at most a quarter of the directions, and of the sum of x * x
    qx += 8 * px / gas.moves.length;
    qy += 8 * py / gas.moves.length;
    error = Math.abs(more) + Math.abs(px) + Math.abs(py);
  }
  return chances;
}
