// Starts: what a channel begins with.
import { fillDeveloped, meansOf } from "./developed.js";
import { Flow } from "./flow.js";
import { GASES, SOLID, eastOf, equilibrium } from "./gases.js";
import { bitsOf } from "./lengths.js";
import { isInText } from "./message.js";
import { fillStates } from "./scenes.js";
import { stripeOf } from "./stripe.js";
import { dense } from "./tools.js";

// whether a place is solid in a channel W wide and T tall, with obstacles of radius R
const SOLIDS = {
  disc: (W, T, R) => (x, y) => (x - W / 5) ** 2 + (y - T / 2) ** 2 <= R * R, // Math.hypot is slow
  plate: (W, T, R) => (x, y) => Math.abs(x - W / 5) <= 2 && Math.abs(y - T / 2) <= R,
  discs: (W, T, R) => (x, y) => (x - W / 5) ** 2 + (Math.abs(y - T / 2) - 1.7 * R) ** 2 <= R * R,
};
const PARTICLES = { pair: 0x09, triple: 0x15 };
const GRAINS = 0.15;
const DISSOLVED = 3000, SAMPLED = 50; // generations after which a text is noise, and between two entropies until then

/** Puts grains of a radius anywhere until a part of the cells is solid: of twice as many some leave one throat. */
function putGrains({ drive, cells }, states, tall, radius) {
  for (let solid = 0; solid < GRAINS * states.length; ) {
    /** @type {Place} */
    const middle = [drive.draw() * cells.width, drive.draw() * tall];
    for (const at of cells.near(middle, middle, radius)) {
      if (states[at] !== SOLID) solid++;
      states[at] = SOLID;
    }
  }
}

export function drawn(make, start) {
  const { gas: name, chirality, width, height, filling, wind, keep, shape, radius, seed, isDeveloped } = start;
  const { lengths = "", text = "" } = start;
  const gas = GASES[name], tall = (height - 1) * gas.apart, states = new Uint8Array(width * height);
  const flow = new Flow(make(gas, width, height), { chirality, seed, generation: 0, wind: keep ? wind : null });
  const all = (isInside, change) => {
    for (let y = 0, at = 0; y < height; y++) {
      const east = eastOf(gas, y), south = y * gas.apart;
      for (let x = 0; x < width; x++, at++) if (isInside(x + east, south)) change(at);
    }
  };
  const rates = (part, u = 0) => equilibrium(gas, part, u).map((chance) => Math.round(1000 * chance));
  if (shape in SOLIDS) all(SOLIDS[shape](width, tall, radius), (at) => (states[at] = SOLID));
  if (shape === "porous") putGrains(flow, states, tall, radius);
  const across = 32 * flow.kernel.per, unlike = [...bitsOf(lengths, across * height)].filter((bit) => bit % across < width);
  for (const bit of unlike) states[Math.floor(bit / across) * width + (bit % across)] ^= SOLID;
  const developed = isDeveloped ? meansOf(start) : null;
  if (shape in PARTICLES) states[width + 1] = PARTICLES[shape];
  else if (developed) fillDeveloped(flow, states, developed);
  else fillStates(gas, states, seed, rates(filling, wind));
  if (shape === "text") {
    const inner = fillStates(gas, states.slice(), BigInt(seed) + 1n, rates(0.6));
    all(isInText(text, width, tall), (at) => (states[at] = inner[at]));
  }
  const [first, rows] = [Math.ceil(height / 2 - radius), 2 * radius], isStripe = shape === "stripe";
  if (isStripe) for (let at = first * width; at < (first + rows) * width; at++) states[at] |= 1; // a particle eastwards
  flow.cells.fill(states);
  if (isStripe) flow.stripe = stripeOf(flow, first, rows);
  flow.shape = flow.kernel.solid.slice();
  for (const bit of unlike) flow.shape[bit >> 5] ^= 1 << bit;
  if (shape === "sound") dense(flow, { at: [width / 2, tall / 2], radius });
  flow.begin();
  flow.isMessage = shape === "text";
  while (flow.isMessage && flow.generation < DISSOLVED) {
    flow.way.push([flow.generation, flow.entropy]);
    flow.advance(SAMPLED);
  }
  flow.notes = states.every((state) => state === SOLID) ? ["All cells are solid: choose more cells, or a smaller obstacle."]
    : isDeveloped && !developed ? ["No such flow is kept as it is once developed, so this one begins fresh."] : [];
  return flow;
}
