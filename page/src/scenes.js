// Scenes: the lattice of a text, and the texts of a lattice. docs/FORMATS.md has the formats.
import { Flow } from "./flow.js";
import { GASES, OTHER, SOLID } from "./gases.js";
import { blocks, keyStream } from "./keystream.js";
import { count } from "./numbers.js";

const SPELLED = Array.from({ length: SOLID + 1 }, (_, state) => state.toString(16).padStart(2, "0"));
SPELLED[0] = "..";
SPELLED[SOLID] = "##";
const KEYS = "version generation gas chirality seed cells width height solid rate particles".split(" ");

/** Fills the fluid cells: direction i with a chance of rates[i] thousandths, as a scene's `rate` does. */
export function fillStates(gas, states, seed, rates) {
  const words = blocks(states.length);
  for (let at = 0; at < states.length; at++) states[at] &= SOLID;
  for (let i = 0; i < gas.directions; i++) {
    if (!rates[i]) continue;
    keyStream(seed, (1n << 63n) + BigInt(i), words);
    for (let at = 0; at < states.length; at++) {
      if ((words[at] >>> 0) % 1000 < rates[i] && states[at] !== SOLID) states[at] |= 1 << i;
    }
  }
  return states;
}

/**
 * The keys and values of a scene as this page, a checkpoint and `draw` write it: lines with a text, an integer, or a
 * list of them. They become JSON, with integers as texts.
 * @param {string} text
 */
function readKeys(text) {
  const token = /("[^"\\\n]*")|'([^'\\\n]*)'|#.*|(0x[\da-f]+|\d+(?:_\d+)*)|^[ \t]*([a-z]+)[ \t]*=/gim;
  const json = text.replace(token, (_, quoted, literal, number, key) => {
    if (key) return `,"${key}":`;
    return quoted ?? (literal !== undefined ? `"${literal}"` : number ? `"${BigInt(number.replaceAll("_", ""))}"` : "");
  });
  try {
    return JSON.parse(`{${json.replace(/^[\s,]*/, "").replace(/,\s*\]/g, "]")}}`);
  } catch {
    throw new Error("this page reads scenes as it, a checkpoint and `draw` write them, and this file is no such scene");
  }
}

function check(isRead, what) {
  if (!isRead) throw new Error(`this page does not read ${what}`);
}

/** The lattice of a scene, of at most so many cells. */
export function readScene(text, most) {
  const keys = readKeys(text), { gas: name, cells: rows, generation = 0, chirality = "seeded", seed = "0" } = keys;
  const stray = Object.keys(keys).find((key) => !KEYS.includes(key));
  check(!stray, `the key ${stray}`);
  check(Object.hasOwn(GASES, name), `the gas ${name}`);
  check(Object.hasOwn(OTHER, chirality), `the chirality ${chirality}`);
  check(Number(keys.rate ?? 0) <= 1000 && BigInt(seed) < 1n << 63n, "such a rate or seed");
  const gas = GASES[name], height = rows ? rows.length : Number(keys.height);
  const width = rows ? (rows[0]?.length ?? 0) / 2 : Number(keys.width), number = width * height;
  check(number <= most, `${count(number)} cells, and at most ${count(most)}`);
  check(width % 1 === 0 && number > 0 && width <= 65536 && height <= 65536, "a width and a height that are none");
  const states = rows ? readMap(rows, width, gas) : readArea(keys, width, height, gas, seed);
  return { gas, chirality, seed, generation: Number(generation), width, height, states };
}

function readMap(rows, width, gas) {
  const byPair = new Map(SPELLED.slice(0, 1 << gas.directions).map((pair, state) => [pair, state]));
  byPair.set("00", 0).set("##", SOLID);
  return Uint8Array.from(rows.flatMap((row, y) => {
    check(row.length === 2 * width, `the length of row ${y}`);
    return Array.from({ length: width }, (_, x) => {
      const state = byPair.get(row.slice(2 * x, 2 * x + 2));
      check(state !== undefined, `cell ${x} of row ${y}`);
      return state;
    });
  }));
}

function readArea({ solid = [], particles = [], rate = 0 }, width, height, gas, seed) {
  const states = new Uint8Array(width * height);
  for (const [x, y, w, h] of solid.map((list) => list.map(Number))) {
    check(w > 0 && h > 0 && x + w <= width && y + h <= height, `the rectangle ${[x, y, w, h]}`);
    for (let row = y; row < y + h; row++) states.fill(SOLID, row * width + x, row * width + x + w);
  }
  fillStates(gas, states, seed, Array(gas.directions).fill(Number(rate)));
  for (const [x, y, state] of particles.map((list) => list.map(Number))) {
    const at = y * width + x, isIn = x < width && y < height && state < 1 << gas.directions && states[at] !== SOLID;
    check(isIn, `the particle ${[x, y, state]}`);
    states[at] = state;
  }
  return states;
}

/** A flow of a scene, or of another flow's cells. */
export function flowOf(make, scene) {
  const { gas, width, height, states } = scene, flow = new Flow(make(gas, width, height), scene);
  flow.cells.fill(states);
  flow.begin();
  return flow;
}

function lines({ cells }, before, after) {
  const spelled = Array.from(cells.states(), (state) => SPELLED[state]), rows = [];
  for (let at = 0; at < spelled.length; at += cells.width) rows.push(spelled.slice(at, at + cells.width).join(""));
  return rows.map((row) => before + row + after).join("");
}

export function sceneOf(flow) {
  const { gas, chirality, seed, sceneGeneration: generation } = flow;
  const keys = { version: 2, gas: `"${gas.name}"`, chirality: `"${chirality}"`, seed, generation };
  const head = Object.entries(keys).map(([key, value]) => `${key} = ${value}\n`);
  return `${head.join("")}cells = [\n${lines(flow, '    "', '",\n')}]\n`;
}

/** What `fhpgas run` prints for the cells of a flow. */
export const printed = (flow) => `generation ${flow.sceneGeneration} particles ${flow.totals()[1]}\n${lines(flow, "", "\n")}`;
