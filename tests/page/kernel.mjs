// Compares the page's kernel and how it fills areas with the program, bit for bit: the kernel in page/fhpgas.html, and, where `make` left
// page/engine.js, the proved engine.
//   node --test tests/page/kernel.mjs        the program is FHPGAS, or ./fhpgas
import assert from "node:assert/strict";
import { spawnSync } from "node:child_process";
import { existsSync, readFileSync, readdirSync } from "node:fs";
import { test } from "node:test";
import { fileURLToPath } from "node:url";
import { maker } from "../../page/built.mjs";
import { Flow } from "../../page/src/flow.js";
import { GASES, SOLID } from "../../page/src/gases.js";
import { fillStates, printed, readScene, sceneOf } from "../../page/src/scenes.js";
import { gathered, sumsOf } from "../../page/src/sums.js";
import { lots } from "../lib/random_numbers.mjs";

const root = fileURLToPath(new URL("../..", import.meta.url)), program = process.env.FHPGAS ?? `${root}fhpgas`;
const kernels = { plain: await maker() };
if (existsSync(`${root}page/engine.js`)) {
  new Function(readFileSync(`${root}page/engine.js`, "utf8"))();
  kernels.proved = await maker(globalThis.FHPGAS_ENGINE);
} else console.log("the engine is left out, because page/engine.js is missing: run make");
const MAPS = 200, AREAS = 18, ALL = Object.values(GASES);

// The line that the program prints first, and its rows.
function run(scene, generations) {
  const words = ["run", "--generations", generations, "--stages", 4, "--capacity", 64].map(String);
  const done = spawnSync(program, words, { input: scene, maxBuffer: 1 << 28 });
  if (done.status !== 0) throw new Error(`${done.error ?? done.stderr}`);
  return done.stdout.toString().trimEnd().split("\n");
}

// Whether the sums of blocks are those of the program's table.
function sameSums(flow, wide, tall) {
  const words = ["coarse", "--generations", "0", "--block-width", `${wide}`, "--block-height", `${tall}`];
  const done = spawnSync(program, words, { input: sceneOf(flow).replace(/generation = .*/, "generation = 0"), maxBuffer: 1 << 28 });
  const [, ...rows] = done.stdout.toString().trimEnd().split("\n"), { numbers } = sumsOf(flow.kernel, wide, tall);
  const totals = flow.totals(), sum = (part) => numbers.filter((_, k) => k % 4 === part).reduce((a, b) => a + b, 0);
  const isWhole = totals.every((total, part) => total === sum(part)) && (wide < 4 || String(gathered(sumsOf(flow.kernel, 4, 1), wide, tall).numbers) === String(numbers));
  return isWhole && done.status === 0 && rows.every((row, i) => row.split(/[\s,]+/).slice(-4).every((value, k) => Number(value) === numbers[4 * i + k]));
}

const textOf = (keys) => Object.entries(keys).map(([key, value]) => `${key} = ${value}\n`).join("");
const spelled = (state) => (state === SOLID ? "##" : state ? state.toString(16).padStart(2, "0") : "..");
const rowsOf = (cells, width, height) => Array.from({ length: height }, (_, y) =>
  Array.from(cells.subarray(y * width, (y + 1) * width), spelled).join(""));

function drawn(random, gas, width, height) {
  const cells = new Uint8Array(width * height), rate = random.of([0.02, 0.1, 0.2, 0.35, 0.6]);
  const singles = random.of([0, 0.001, 0.03]);
  for (let at = 0; at < width * height; at++) {
    for (let i = 0; i < gas.directions; i++) if (random.chance() < rate) cells[at] |= 1 << i;
    if (random.chance() < singles) cells[at] = SOLID;
  }
  for (let n = random.below(5); n > 0; n--) {
    const [left, top] = [width, height].map(random.below), [w, h] = [40, 20].map(random.below);
    const across = Math.min(width, left + w + 1) - left;
    for (let y = top; y <= Math.min(height - 1, top + h); y++) cells.fill(SOLID, y * width + left, y * width + left + across);
  }
  return cells;
}

const WIDTHS = [1, 2, 3, 7, 31, 32, 33, 47, 63, 64, 65, 95, 96, 97, 128, 129, 161, 255, 257], HEIGHTS = [1, 2, 3, 5, 8, 16, 33, 64];
function map(number) {
  const random = lots(number), gas = ALL[number % ALL.length];
  const chirality = ["seeded", "left", "right"][Math.floor(number / ALL.length) % 3];
  const width = random.of(WIDTHS), height = random.of(HEIGHTS), generations = 100 + random.below(400);
  const first = random.of([0, 1, 2 ** 32 - 100, 10 ** 12]);
  const seed = random.of([0n, 1n, 2n ** 32n, 2n ** 63n - 1n, BigInt(random.below(2 ** 32)) << 20n]);
  const cells = drawn(random, gas, width, height);
  const keys = { version: 2, gas: `"${gas.name}"`, chirality: `"${chirality}"`, seed, generation: first };
  const [line, ...theirs] = run(textOf({ ...keys, cells: JSON.stringify(rowsOf(cells, width, height)) }), generations);
  for (const [kernel, make] of Object.entries(kernels)) {
    const flow = new Flow(make(gas, width, height), { chirality, seed: String(seed), generation: first });
    flow.cells.fill(cells);
    flow.begin();
    for (let left = generations; left > 0; left -= 37) flow.advance(Math.min(37, left));
    const name = `${kernel}: ${gas.name}, ${chirality}, ${width} x ${height}, ${generations} generations`;
    assert.equal(printed(flow), `${line}\n${theirs.join("\n")}\n`, name);
    const [wide, tall] = [random.of([1, 2, 4, 8, 16, 32]), 1 + random.below(height)];
    assert.ok(sameSums(flow, wide, tall), `sums of ${name}`);
  }
}
for (let number = 0; number < MAPS; number++) test(`map ${number}`, () => map(number));

// the filling of areas
function area(number) {
  const random = lots(1000 + number), gas = ALL[number % ALL.length];
  const width = random.of(WIDTHS), height = random.of(HEIGHTS), rate = random.of([0, 1, 200, 500, 999, 1000]);
  const seed = random.of([0n, 7n, 2n ** 63n - 1n]);
  const cells = new Uint8Array(width * height);
  cells[0] = SOLID;
  fillStates(gas, cells, seed, Array(gas.directions).fill(rate));
  const [, ...theirs] = run(textOf({ gas: `"${gas.name}"`, width, height, rate, seed, solid: "[[0, 0, 1, 1]]" }), 0);
  assert.equal(rowsOf(cells, width, height).join("\n"), theirs.join("\n"), `${gas.name}, ${width} x ${height}`);
}
for (let number = 0; number < AREAS; number++) test(`area ${number}`, () => area(number));

// the scenes of the repository, as the page reads them
function scene(name) {
  const text = readFileSync(`${root}scenes/${name}`, "utf8"), { states, width, height } = readScene(text, 1 << 20);
  assert.equal(rowsOf(states, width, height).join("\n"), run(text, 0).slice(1).join("\n"));
}
for (const name of readdirSync(`${root}scenes`).filter((file) => file.endsWith(".toml"))) test(name, () => scene(name));

// sizes of 2^32 cells or blocks, which 32 bits can't count, are refused before anything is read
for (const [name, make] of Object.entries(kernels)) test(`the largest size, ${name}`, () => {
  const { calls, number } = make(ALL[0], 1, 1), words = (planes) => [0, planes * 2 ** 26].map(number), none = [0, 0].map(number), LENGTH = 7;
  assert.equal(calls.fhpgas_unpack(1, 65536, 65536, ...words(1), ...none), LENGTH);
  assert.equal(calls.fhpgas_sums(ALL[0].number, 65536, 65536, 1, 1, ...words(1), ...words(ALL[0].directions), ...none), LENGTH);
});
