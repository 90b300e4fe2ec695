// Tries what the page computes beside its kernel: the way back through random histories, the drive, the probe, and each number
// that is shown. Then builds the page again, if esbuild has the version of page/build.mjs, and checks its types.
//   node tests/page/model.mjs [HISTORIES] [RUNS OF NOISE], or node --test tests/page/model.mjs
//
// number                        | known from
// viscosity ν                   | the package's table of gases, whose formulas tests/package/derivation.py derives
// factor g, Reynolds, Mach      | docs/EXPERIMENTS.md, the street: another program, in Python
// Strouhal, its error           | the same; and waves of a known period
// particles, fluid, u, v, force | the program's own sums of the same cells
// filling                       | what the cells were filled with
// noise of v                    | the binomial distribution of the particles of a block
// front                         | a drawn ring whose edge is known, and the speed of sound
// parabola, force over u        | Poiseuille's and Darcy's laws
// fastest block, incoming, blocked part | a drawn flow whose speed is one, and the geometry of a disc
// generation, differing cells   | counted here
// updates, frames per second    | tests/page/browser.py, by the clock of the browser
import assert from "node:assert/strict";
import { spawnSync } from "node:child_process";
import { mkdtempSync, readFileSync, rmSync } from "node:fs";
import { test } from "node:test";
import { fileURLToPath } from "node:url";
import { maker } from "../../page/built.mjs";
import { Flow } from "../../page/src/flow.js";
import { Experiment } from "../../page/src/experiment.js";
import { Watched } from "../../page/src/frames.js";
import { GASES, SOLID } from "../../page/src/gases.js";
import { isInText, refusalOf, sealed, spelled, unsealed } from "../../page/src/message.js";
import { STREET, frontOf, numbersOf, profileOf, strouhal, viscosity } from "../../page/src/numbers.js";
import { PRESETS } from "../../page/src/presets.js";
import { periodOf, textOf } from "../../page/src/probe.js";
import { readScene, sceneOf } from "../../page/src/scenes.js";
import { drawn } from "../../page/src/starts.js";
import { Stroke, cleared, dense, flipOne } from "../../page/src/tools.js";
import { lots } from "../lib/random_numbers.mjs";

const root = fileURLToPath(new URL("../..", import.meta.url)), [histories = 60, noises = 12] = process.argv.slice(2).map(Number);
const make = await maker();
const near = (what, found, wanted, error) => assert.ok(Math.abs(found - wanted) <= error, `${what}: ${found}, not ${wanted}`);
const isNear = (what, ...numbers) => test(what, () => near(what, ...numbers));
const FIRST = { gas: "fhp1", chirality: "left", width: 128, height: 64, filling: 0.2, wind: 0, keep: false, shape: "none", radius: 4, seed: "3" };
const DISC = { gas: "fhp-rest", width: 256, height: 128, filling: 0.18, wind: 0.2, keep: true, shape: "disc", radius: 11, seed: "1" };
const flowOf = (others) => drawn(make, { ...FIRST, ...others });

// -- the way back, through whatever was done

function history(number) {
  const random = lots(number), gas = random.of(Object.values(GASES)), width = random.of([5, 31, 32, 64, 97, 130]), height = 3 + random.below(60);
  const wind = random.chance() < 0.5 ? random.of([0, 0.1, 0.2]) : null;
  const start = { gas: gas.name, chirality: gas.isHexagonal ? random.of(["left", "right"]) : "seeded", width, height, wind, keep: wind !== null,
    filling: random.of([0.1, 0.2, 0.3]), shape: random.of(["none", "disc", "plate"]), radius: 2 + random.below(8), seed: String(number) };
  const flow = drawn(make, { ...start, wind: wind ?? 0 }), first = flow.cells.kept(), particles = flow.totals()[1], strokes = [];
  const place = () => [random.below(width), random.below(height) * gas.apart];
  for (let n = 3 + random.below(8); n > 0; n--) {
    const kind = random.below(9);
    if (kind < 2) flow.advance(random.below(40));
    else if (kind < 4) {
      const stroke = new Stroke();
      stroke.set(flow, flow.cells.near(place(), place(), 1 + random.below(4)), random.chance() < 0.7);
      strokes.push(stroke);
    } else if (kind === 4) dense(flow, { at: place(), radius: 1 + random.below(5) });
    else if (kind === 5) flipOne(flow, place());
    else if (kind === 6) strokes.pop()?.undo(flow);
    else if (kind === 7 && gas.isHexagonal) flow.setChirality(random.of(["left", "right"]));
    else if (kind === 7) cleared(flow);
    else if (flow.generation > 0) {
      flow.back();
      if (flow.found !== null) return assert.ok(flow.found === 0 && flow.cells.differing(first) === 0, `history ${number}: one step back`);
    }
  }
  assert.equal(flow.totals()[1], particles, `history ${number}: particles`);
  const copy = readScene(sceneOf(flow), 1 << 20), isEqual = (state, at) => state === flow.cells.state(at);
  assert.ok(copy.states.every(isEqual) && copy.generation === flow.generation, `history ${number}: its scene is read back`);
  flow.reverse();
  if (flow.found === null) flow.advance(flow.generation + 1);
  assert.ok(flow.found === 0 && flow.generation === 0 && flow.cells.differing(first) === 0, `history ${number}: back at its start: ${flow.found} cells differ at ${flow.generation}`);
}
for (let number = 0; number < histories; number++) test(`history ${number}`, () => history(number));

// Undo, clear and strokes before, on and after the way back, in any order: the solid cells of a generation are those that it had forwards,
// but for what was done on the way back and not undone.
function undoing(number) {
  const random = lots(9000 + number), gas = random.of(Object.values(GASES)), [width, height] = [30 + random.below(40), 16 + random.below(20)];
  const experiment = Object.assign(new Experiment(), { make }), keep = random.chance() < 0.5;
  experiment.start({ starts: [{ ...FIRST, gas: gas.name, width, height, wind: 0.1, keep, shape: random.of(["none", "disc"]), seed: "1" }], state: "" });
  const [{ flow }] = experiment.watched, solid = () => Array.from({ length: width * height }, (_, at) => flow.cells.isSolid(at));
  const place = () => [random.below(width), random.below(height) * gas.apart], same = (what, isSo) => assert.ok(isSo, `undoing ${number}: ${what}`);
  const done = [], forwards = [solid()]; // what can be undone, and the solid cells by generation, before its changes
  let changes = [], removed = [], origin = 0; // changes forwards, and what was undone on the way back before it came there
  const act = (change) => {
    const before = solid(), changed = new Map();
    change();
    solid().forEach((now, at) => now !== before[at] && changed.set(at, before[at]));
    if (flow.direction > 0) changes.push({ was: changed, generation: flow.generation });
    return changed;
  };
  const note = (was, isClear = false) => {
    if (was.size || isClear) done.push({ was, generation: flow.generation, isLate: flow.direction < 0, isBack: false });
  };
  const begun = () => {
    forwards[flow.generation] = solid();
    done.forEach((one) => (one.generation = -1));
    [changes, removed, origin] = [[], [], flow.generation];
  };
  const passes = (isCalm) => {
    const { generation } = flow, passed = (one) => one.generation >= generation;
    for (const { was } of changes.filter(passed)) for (const at of was.keys()) done.forEach((late) => late.isLate && late.generation >= 0 && late.was.delete(at));
    done.forEach((one) => (one.isBack ||= !one.isLate && passed(one)));
    [changes, removed] = [changes, removed].map((some) => some.filter((one) => !passed(one)));
    const others = new Set([...removed, ...done.filter(({ isLate, generation: when }) => isLate && when >= 0)].flatMap(({ was }) => [...was.keys()]));
    same("solid cells on the way back", solid().every((now, at) => others.has(at) || now === forwards[generation][at]));
    if (flow.direction < 0) return;
    same("back at the start", generation === origin && (!isCalm || flow.found === 0));
    begun();
  };
  for (let n = 12 + random.below(20); n > 0; n--) {
    const kind = random.below(8);
    if (kind < 3) {
      for (let k = random.below(12); k >= 0; k--) {
        const isBack = flow.direction < 0, isCalm = !flow.isDisturbed;
        flow.advance(1);
        if (isBack) passes(isCalm);
        else forwards[flow.generation] = solid();
      }
    } else if (kind < 5) note(act(() => experiment.stroke({ from: place(), to: place(), radius: 1 + random.below(3), solid: random.chance() < 0.6, end: true })));
    else if (kind === 5 && random.chance() < 0.5) note(act(() => experiment.act("clear", cleared)), true);
    else if (kind === 6) {
      const { direction, isDisturbed } = flow;
      experiment.reverse((one) => one.reverse());
      if (direction > 0) passes();
      else if (isDisturbed) begun();
    } else if (done.length) {
      const { was, isBack, isLate, generation } = done.pop(), before = solid();
      act(() => experiment.undo());
      same("what was undone", solid().every((now, at) => now === (was.has(at) && !isBack ? was.get(at) : before[at])));
      if (flow.direction < 0 && !isBack && (!isLate || generation < 0)) removed.push({ was, generation });
    }
  }
}
for (let number = 0; number < histories; number++) test(`undoing ${number}`, () => undoing(number));

// A small memory of patches is cut, and the gas comes back to where it still reaches.
test("a way back that was cut", () => {
  const flow = flowOf({ wind: 0.1, keep: true, shape: "porous" });
  flow.history.most = 20000;
  flow.advance(300);
  const { origin: { generation: origin } } = flow.history;
  flow.reverse();
  flow.advance(1000);
  const isBack = origin > 0 && flow.generation === origin && flow.found === 0;
  assert.ok(isBack && flow.notes.some((note) => note.includes("64 MB")), `a way back that was cut: ${[origin, flow.generation, flow.found]}`);
});

// -- what is shown on the way back

const view = { field: "vorticity", block: 8, smooth: 1, span: 300, window: null };
test("means over time are reversed with the particles", () => {
  const flow = flowOf(DISC);
  const watched = new Watched(flow), [u, v] = ["u", "v"].map((part) => () => watched.velocity.mean[part].map((value) => value || 0));
  for (let k = 0; k < 20; k++) (watched.advance(5), watched.frame(view, 5));
  const before = [u(), v(), watched.mean.parts[2].slice()];
  flow.reverse();
  watched.frame(view, 0);
  [u(), v(), watched.mean.parts[2]].forEach((after, k) => assert.ok(after.every((value, i) => value === -before[k][i]), "means over time are reversed with the particles"));
});
test("a cone begins anew", () => {
  const flow = flowOf();
  const watched = new Watched(flow), unlike = () => watched.differences(8, 8)?.reduce((sum, number, k) => sum + (k % 4 === 1 ? number : 0), 0);
  watched.flip(make, [60, 30]);
  watched.advance(20);
  assert.ok(unlike() > 20, `a cone grows: ${unlike()}`);
  watched.flip(make, [100, 30]);
  assert.equal(unlike(), 1, "a second particle has a cone of its own");
  [watched.twin] = [null, flow.reverse()];
  watched.renew(make);
  assert.ok(watched.twin === null && flow.notes.at(-1)?.startsWith("On the way back"), "on the way back there is none, and it is said");
  [watched.twin] = [null, flow.reverse()];
  watched.renew(make);
  assert.ok(unlike() === 1 && flow.notes.at(-1)?.includes("begins anew"), `it begins anew with one cell: ${unlike()}`);
});

// -- developed starts

function standing(name, fitting) {
  const { gases: [gas], shapes: [shape], size, fill: filling, chirality, wind, radius, keep } = { ...PRESETS[name], ...PRESETS[name][fitting] };
  const [width, height] = size.split(" x ").map(Number), start = { gas, shape, chirality, width, height, filling, wind, radius, keep, seed: "2" };
  const behind = (isDeveloped) => {
    const flow = flowOf({ ...start, isDeveloped }), { columns, rows, numbers } = flow.sums(32, 36), { units: [, north] } = flow.gas;
    near("its filling", flow.totals()[1] / flow.totals()[0] / 7, filling, 0.001);
    near("its wind", flow.totals()[2] / 2 / flow.totals()[1], wind, 0.005);
    assert.equal(flow.notes.length, 0, "its means are kept");
    const first = columns * Math.floor(rows / 2) + Math.ceil((width / 5 + radius) / 32), long = Math.min(40, Math.floor((columns * 3) / 5));
    return Array.from({ length: long }, (_, k) => 4 * (first + k)).map((at) => (numbers[at + 3] * north) / numbers[at + 1]);
  };
  const [vortices, even] = [behind(true), behind(false)].map((v) => [Math.min(...v), Math.max(...v)]), way = `${name}, ${fitting || "wide"}`;
  assert.ok(vortices[0] < -0.1 && vortices[1] > 0.1, `${way}: gas flows across behind it, to both sides: ${vortices}`);
  assert.ok(even[0] > -0.07 && even[1] < 0.07, `${way}: and does not in a fresh start: ${even}`);
}
for (const [name, fitting] of [["vortex street", ""], ["vortex street", "upright"], ["flow past a plate", ""], ["flow past a plate", "upright"], ["flow past a plate", "flat"]])
  test(`${name} stands at once`, () => standing(name, fitting));
test("a start without means says so", () => assert.equal(flowOf({ ...DISC, isDeveloped: true }).notes.length, 1));

// -- messages

const channel = [512, 255 * Math.sqrt(0.75)], text = spelled("Hi, Zoë <3 100!");
test("a text is spelled in the font", () => assert.ok(text === "HI, ZOE ♥ 100!" && refusalOf(text, ...channel) === "", text));
test("an address keeps a text", () => assert.equal(unsealed(sealed(text)), text));
test("which nobody reads there", () => assert.ok(![text, "HI", "100"].some((part) => sealed(text).includes(part))));
const read = (flips) => {
  const flow = flowOf({ shape: "text", text: "L" });
  assert.equal(flow.generation, 3000, "a message is noise at generation 3,000");
  const undo = flips && flipOne(flow, [60, 30]);
  if (flips > 1) undo();
  flow.reverse();
  flow.advance(5000);
  return [flow.generation, flow.found];
};
test("a message that comes back", () => {
  assert.ok([0, 2].every((flips) => String(read(flips)) === "0,0"), "it comes back, also if a flip was undone");
  const [generation, found] = read(1);
  assert.ok(generation === 0 && found > 1000, `with one particle flipped first it does not: ${found}`);
});
// whatever changes cells of a message, it does not come back, and what was drawn stays
const DISTURBING = { "a stroke": (experiment) => experiment.stroke({ from: [40, 20], to: [44, 24], radius: 1, solid: true, end: true }),
  "a burst": (experiment) => experiment.act("burst", (flow) => dense(flow, { at: [60, 30], radius: 2 })),
  "a wind": ({ watched: [{ flow }] }) => (flow.drive.keep(0.1), flow.advance(1)), "a particle": (experiment) => experiment.flip([60, 30]) };
for (const [what, disturb] of Object.entries(DISTURBING)) test(`a message that was disturbed by ${what}`, () => {
  const experiment = Object.assign(new Experiment(), { make });
  experiment.start({ starts: [{ ...FIRST, shape: "text", text: "L" }], state: "" });
  const [{ flow }] = experiment.watched, before = flow.cells.kept();
  disturb(experiment);
  if (what !== "a wind") { // undone at once it is as it was
    experiment.undo();
    assert.ok(flow.cells.differing(before) === 0 && !flow.isDisturbed, "it is undone");
    disturb(experiment);
  }
  const fluid = flow.totals()[0];
  flow.drive.keep(null);
  flow.reverse();
  flow.advance(5000);
  assert.ok(flow.generation === 0 && flow.found > 1000, `it does not come back: ${flow.found} cells differ`);
  assert.equal(flow.totals()[0], fluid, "the obstacle stays");
});
test("a broken text is none", () => assert.ok([sealed(text).slice(0, -1), `${sealed(text)}A`, sealed(text).replace(/.$/, (sign) => (sign === "A" ? "B" : "A")), "", "AA", "HELLO"]
  .every((letters) => unsealed(letters) === null)));
const [, most] = refusalOf("A".repeat(400), ...channel).match(/: (\d+) of them fit/).map(Number);
test("a text that is too long is refused with the number that fits", () => assert.equal(["A".repeat(most), "A".repeat(most + 1)].map((one) => refusalOf(one, ...channel) === "").join(), "true,false"));
test("a sign that the font does not have is refused", () => assert.ok(refusalOf("€", ...channel).includes("€")));
test("an older link has its text", () => assert.equal(unsealed("IDU4A-ENc9D29apcDW"), "TIME TURNS ROUND"));
const others = { "Привет, мир! Ёй": "ΠPИBET, MИP! EЙ", "Καλημέρα": "KAΛHMEPA", "Їжак": "IЖAK", "100 % sure; “ok” @#_*": '100 % SURE; "OK" @#_*' };
for (const [typed, written] of Object.entries(others)) test(`${typed} is spelled, and kept by an address`, () => {
  assert.equal(spelled(typed), written);
  assert.ok(refusalOf(written, ...channel) === "" && unsealed(sealed(written)) === written);
});
test("no two signs look alike", () => {
  const [, signs] = refusalOf("€", ...channel).match(/: it has (.*)\.$/);
  const pictures = [...signs].map((sign) => {
    const isIn = isInText(sign, 25, 34);
    return Array.from({ length: 25 * 34 }, (_, at) => Number(isIn(at % 25, Math.floor(at / 25)) > 0)).join("");
  });
  assert.equal(new Set(pictures).size, signs.length, signs);
});
const isIn = isInText("HELLO", 600, 300), places = Array.from({ length: 180_000 }, (_, at) => [at % 600, Math.floor(at / 600)]).filter((place) => isIn(...place));
for (const [way, k, middle] of [["across", 0, 300], ["down", 1, 150]]) test(`a text is in the middle ${way}`, () => {
  const [low, high] = [Math.min, Math.max].map((of) => places.reduce((found, place) => of(found, place[k]), middle));
  near("its middle", (low + high) / 2, middle, 2);
});
test("and fills a good part of it", () => assert.ok(places.length > 20_000 && places.length < 90_000));

// -- the entropy

/** Cells with their entropies while a burst spreads, and those on the way back at the same generations. */
function spreading(gas) {
  const flow = flowOf({ gas, chirality: gas === "hpp" ? "seeded" : "left", width: 128, height: 96, shape: "sound", radius: 12, filling: 0.1 });
  const { width, height } = flow.cells, there = [], back = [];
  for (let g = 0; g < 100; g += 20) (there.push({ gas, width, height, states: Array.from(flow.cells.states()), entropy: flow.entropy }), flow.advance(20));
  flow.reverse();
  for (let g = 0; g < 100; g += 20) (flow.advance(20), back.unshift(flow.entropy));
  return { there, back };
}
const spread = Object.keys(GASES).map(spreading), seen = spread.flatMap(({ there }) => there);
for (const { there, back } of spread) test(`the entropy of ${there[0].gas} rises, and falls as it rose`, () => {
  const entropies = there.map(({ entropy }) => entropy);
  assert.deepEqual(back, entropies, "each digit");
  assert.ok(entropies[4] > entropies[0] + 0.02, `it rises: ${entropies}`);
});
const [python, has] = spawnSync("python3", [`${root}tests/lib/needs.py`]).stdout.toString().split("\n");
test("entropies are those of experiments/entropy.py", { skip: !/numpy.*scipy/.test(has) && "Python lacks numpy and scipy" }, () => {
  const code = `import json, sys; import entropy, fhpgas, numpy as np
print([entropy.entropy(fhpgas.Lattice(np.reshape(one["states"], (one["height"], one["width"])), gas=one["gas"])) for one in json.load(sys.stdin)])`;
  const env = { ...process.env, PYTHONPATH: `${root}python:${root}experiments` }, done = spawnSync(python, ["-c", code], { env, input: JSON.stringify(seen) });
  const known = JSON.parse(done.stdout.toString() || assert.fail(done.stderr.toString()));
  seen.forEach(({ gas, entropy }, k) => near(gas, entropy, known[k], 1e-12));
});
test("an entropy has no solid cells", () => {
  const flow = flowOf({ shape: "plate", radius: 8, width: 64, height: 32 }), [fluid] = flow.totals(), states = flow.cells.states();
  const of = (d) => (d > 0 && d < 1 ? -d * Math.log(d) - (1 - d) * Math.log(1 - d) : 0), blocks = Array.from({ length: 32 }, (_, k) => [8 * (k % 8), 8 * (k >> 3)]);
  const sum = blocks.map(([x, y]) => {
    const inside = [...states].filter((state, at) => state !== SOLID && at % 64 >> 3 === x >> 3 && at >> 9 === y >> 3);
    return Array.from({ length: 6 }, (_, i) => inside.length && inside.length * of(inside.filter((state) => state >> i & 1).length / inside.length));
  }).flat().reduce((a, b) => a + b);
  assert.ok(fluid < 64 * 32);
  near("its entropy", flow.entropy, sum / fluid, 1e-12);
});
test("the entropy of a message", () => {
  const flow = flowOf({ width: 256, height: 128, filling: 0.12, shape: "text", text: "HI" }), rise = flow.entropy - flow.way[0][1];
  const back = (change) => {
    const one = flowOf({ width: 256, height: 128, filling: 0.12, shape: "text", text: "HI" });
    change(one);
    one.reverse();
    one.advance(2950);
    return one.entropy;
  };
  assert.ok(flow.way.length === 60 && rise > 0.1, `it has risen: ${rise}`);
  assert.equal(back(() => 0), flow.way[1][1], "all turned it falls");
  assert.ok(Math.abs(back((one) => flipOne(one, [100, 50])) - flow.entropy) < 0.02 * rise, "one turned it does not");
});

// -- undo

test("one history of all that was done", () => {
  const experiment = Object.assign(new Experiment(), { make }), start = { ...FIRST, seed: "1" };
  experiment.start({ starts: [start], state: "" });
  const [{ flow }] = experiment.watched, kept = [], said = [];
  flow.advance(20);
  const acts = [() => experiment.stroke({ from: [30, 20], to: [40, 30], radius: 3, solid: true, end: true }), () => experiment.act("burst", (one) => dense(one, { at: [80, 30], radius: 6 })),
    () => experiment.flip([20, 20]), () => experiment.act("clear", cleared)];
  for (const act of acts) (kept.push(flow.cells.kept()), act());
  const done = [...kept.slice(1), flow.cells.kept()];
  experiment.start({ starts: [{ ...start, seed: "2" }], state: "" });
  assert.ok(experiment.watched[0].flow !== flow, "a new start is another lattice");
  said.push(experiment.past.at(-1).what);
  experiment.undo();
  assert.equal(experiment.watched[0].flow, flow, "a start is undone");
  for (const cells of kept.reverse()) {
    said.push(experiment.past.at(-1).what);
    experiment.undo();
    assert.equal(flow.cells.differing(cells), 0, `${said.at(-1)} is undone to the last cell`);
  }
  assert.ok(said.join() === "start,clear,turn,burst,stroke" && !experiment.past.length, `the last thing is undone first: ${said}`);
  for (const cells of done) {
    experiment.redo();
    assert.equal(flow.cells.differing(cells), 0, "and done again to the last cell");
  }
  experiment.redo();
  assert.ok(experiment.watched[0].flow !== flow && !experiment.undone.length, "a start too");
  experiment.undo();
  assert.ok(experiment.watched[0].flow === flow && experiment.undone.length === 1, "which is undone again");
  experiment.act("burst", (one) => dense(one, { at: [80, 30], radius: 6 }));
  flow.advance(1);
  const before = flow.cells.kept();
  experiment.undo();
  assert.ok(flow.cells.differing(before) === 0 && flow.notes.at(-1).includes("moved on"), `a burst that has moved on stays, and it is said: ${flow.notes.at(-1)}`);
});

// -- the drive

// u over its mean in eight parts from wall to middle, and the parabola's means over the same parts
const PARTS = 16, parabola = Array.from({ length: PARTS / 2 }, (_, k) => [k, k + 1].map((at) => at / PARTS).map((y) => PARTS * y * y * (3 - 2 * y))).map(([low, high]) => high - low);
function profile(wind, generations) {
  const flow = flowOf({ ...DISC, wind, shape: "none" }), [particles, east] = [new Float64Array(PARTS), new Float64Array(PARTS)];
  flow.advance(6000);
  for (let g = 0; g < generations; g += 20) {
    flow.advance(20);
    const { columns, numbers } = flow.sums(32, 128 / PARTS);
    for (let at = 0; at < numbers.length; at += 4) {
      const row = Math.floor(at / 4 / columns);
      particles[row] += numbers[at + 1];
      east[row] += numbers[at + 2];
    }
  }
  const u = parabola.map((_, k) => east[k] / particles[k] + east[PARTS - 1 - k] / particles[PARTS - 1 - k]), mean = u.reduce((a, b) => a + b) / u.length;
  u.forEach((one, k) => near(`u over its mean at wind ${wind} in part ${k + 1} of 8 from the wall`, one / mean, parabola[k], 0.03));
}
for (const [wind, generations] of [[0.14, 40_000], [0.04, 300_000]]) test(`a channel at wind ${wind}`, () => profile(wind, generations));

// the fastest row of the preset, as it is drawn over the picture
const fastest = (wind) => {
  const { size, fill: filling, gases: [gas], shapes: [shape] } = PRESETS["empty channel"], [width, height] = size.split(" x ").map(Number), found = [];
  const flow = flowOf({ gas, shape, width, height, filling, wind, keep: true, seed: "1" }), watched = new Watched(flow);
  flow.advance(16_000);
  while (flow.generation < 36_000) {
    for (let g = 0; g < 1000; g += 50) (watched.advance(50), watched.velocity.add(50, flow.sums(16, 18)));
    found.push(profileOf({ height, velocity: watched.velocity.mean }).fastest);
  }
  return found.reduce((a, b) => a + b) / found.length;
};
test("the fastest row of an empty channel", () => near("a part of the mean", fastest(0.14), 1.5, 0.03));
test("the fastest row in a fast wind", () => near("a part of the mean", fastest(0.3), 1.44, 0.03));
test("the profile of a drawn flow", () => {
  const u = [1, 1, 4, 4, 1, 1], { means, middles, fastest: most } = profileOf({ height: 20, velocity: { columns: 2, rows: 3, u, height: 8 } });
  assert.deepEqual([means.map((one) => one * 11), middles, most * 11], [[5, 20, 5], [4, 12, 18], 20]); // the mean is (8 + 32 + 4) / 20
});

// force over u in a porous medium, with the generations that the drive's mean then has forgotten
const drag = (wind, seed) => {
  const flow = flowOf({ width: 512, height: 256, filling: 0.3, wind, keep: true, shape: "porous", radius: 8, seed }), found = { force: 0, u: 0 };
  for (let g = 0; g < 5000; g += 1000) {
    flow.advance(1000);
    if (g >= 1000) Object.assign(found, { force: found.force + flow.drive.force, u: found.u + flow.drive.velocity });
  }
  return found.force / found.u;
};
for (const seed of ["1", "2"]) test(`Darcy's law, seed ${seed}`, () => {
  const [slow, ...others] = [0.02, 0.06, 0.1, 0.2].map((wind) => drag(wind, seed));
  others.slice(0, 2).forEach((one, k) => near(`force over u at wind ${[0.06, 0.1][k]}, by that at 0.02`, one / slow, 1, 0.1));
  assert.ok(others[2] > 1.3 * slow, `at wind 0.2 it has grown: ${others[2] / slow}`);
});

const porous = { width: 256, height: 128, wind: 0.1, keep: true, shape: "porous", radius: 6, seed: "1" };
const atPace = (pace) => {
  const flow = flowOf(porous);
  for (let g = 0; g < 400; g += pace) flow.advance(pace);
  return [flow.drive.velocity, flow.drive.force];
};
test("porous flow", () => {
  const forces = [1, 10, 200].map(atPace);
  assert.ok(forces.every((one) => String(one) === String(forces[0])) && forces[0][1] > 0.001, `porous flow at paces 1, 10 and 200 has one force: ${forces}`);
});

// -- numbers

const frameOf = (flow, generations = 1) => new Watched(flow).frame({ field: "speed", block: 8, smooth: 0, span: 1, window: null }, generations);
test("the wind after the way back", () => {
  const flow = flowOf(porous), { u } = frameOf(flow, 0);
  flow.drive.keep(0.2);
  [0, 1].forEach((isBack) => (isBack && flow.reverse(), flow.advance(300)));
  assert.ok(flow.generation === 0 && flow.direction === 1 && frameOf(flow, 0).u === u, `back at the start u is that of its cells: ${u}`);
});
test("the noise", () => {
  const flow = flowOf({ gas: "fhp-rest", width: 1024, height: 288, filling: 0.18 });
  for (const [block, tall] of [[4, 5], [8, 9], [16, 18]]) {
    const watched = new Watched(flow), { noise } = watched.frame({ field: "speed", block, smooth: 0, span: 1, window: null }, 1);
    near(`the noise of blocks of ${block} columns`, noise / (Math.sqrt((3 * 0.18 * 0.82) / (block * tall)) / (7 * 0.18)), 1, 0.06);
  }
});
test("the front", () => {
  const ring = { field: "density", columns: 100, rows: 100, width: 400, height: 400, apart: 1, block: 4, blockRows: 4, generation: 100, direction: 1 };
  const pixels = Uint8Array.from({ length: 10_000 }, (_, i) => 128 + 100 * Math.exp(-(((Math.hypot((i % 100) - 49.5, Math.floor(i / 100) - 49.5) * 4 - 80) / 15) ** 2)));
  near("the front of a drawn ring", frontOf({ ...ring, pixels }, 20), (80 + 15 * Math.sqrt(Math.LN2) - 20) / 100, 0.02);
  assert.equal(frontOf({ ...ring, pixels, field: "speed" }, 20), null, "another field has none");
});
for (const radius of [10, 22, 40]) test(`the front of a burst of radius ${radius}`, () => {
  const watched = new Watched(flowOf({ width: 512, height: 256, filling: PRESETS["sound ring"].fill, shape: "sound", radius }));
  watched.advance(80);
  near("its speed, which is above that of quiet sound", frontOf(watched.frame({ field: "density", block: 4, smooth: 2, span: 1, window: null }, 80), radius), 0.75, 0.05);
  near("quiet sound", watched.flow.gas.sound, 0.71, 0.005);
});
const street = { gas: "fhp-rest", directions: 7, fluid: 1000, particles: 1260, u: 0.299, v: 0, chirality: "seeded", fastest: 0.374 };
const numbers = numbersOf(street, 160);
isNear("g", numbers.g, 0.455, 0.0005);
isNear("Reynolds", numbers.reynolds, 79, 0.5);
isNear("Mach", numbers.mach, 0.46, 0.005);
isNear("Mach of the fastest block", numbers.fastestMach, 0.57, 0.005);
test("its warning", () => assert.ok(numbers.warnings.some((text) => text.startsWith("Mach 0.57"))));
isNear("Strouhal of the mean speed", strouhal(160, 2 * 2383, numbers.g, 0.299), 0.247, 0.001);
isNear("the period of a street in the sentence", numbers.turnover / STREET, 4700, 50);
isNear("and as it was measured", 2 * 2383, 4700, 100);
isNear("Strouhal of the incoming speed", strouhal(160, 2 * 2383, numbers.g, 0.374), 0.198, 0.001);
const FILLINGS = [0.1, 0.3, 0.7], code = `import json; from fhpgas.gas_table import GASES
print(json.dumps({name: [number, gas.momenta, gas.units, gas.correlated, [gas.viscosity(d) for d in ${JSON.stringify(FILLINGS)} if gas.viscosity]]
    for number, (name, gas) in enumerate(GASES.items())}))`;
const table = JSON.parse(spawnSync("python3", ["-c", code], { env: { ...process.env, PYTHONPATH: `${root}python` } }).stdout);
test("the gases are the package's", () => assert.equal(String(Object.keys(GASES).sort()), String(Object.keys(table).sort())));
for (const [gas, { number, momenta, units, fluid }] of Object.entries(GASES)) test(`${gas} is the package's`, () => {
  const [viscosities, ...others] = table[gas].reverse(), own = [fluid?.correlated ?? {}, units, momenta, number];
  assert.equal(JSON.stringify(own), JSON.stringify(others));
  assert.equal(viscosities.length, fluid ? FILLINGS.length : 0);
  viscosities.forEach((nu, i) => near("ν", viscosity(fluid, FILLINGS[i], "seeded"), nu, 1e-12));
});
const thin = (gas, particles) => numbersOf({ ...street, gas, directions: 6, particles, u: 0.1, fastest: 0.1 }, 100).warnings.length;
test("a thin fhp1 warns, a dense one does not", () => assert.ok(thin("fhp1", 600) === 1 && thin("fhp1", 1200) === 0));
test("hpp has no Reynolds number", () => assert.equal(numbersOf({ ...street, gas: "hpp", directions: 4 }, 100).reynolds, undefined));
test("the program's sums of the same cells", () => {
  const program = process.env.FHPGAS ?? `${root}fhpgas`, flow = flowOf({ ...DISC, chirality: "seeded" }), input = sceneOf(flow);
  const words = ["coarse", "--generations", "1", "--block-width", "256", "--block-height", "128"];
  const [fluid, particles, px, py] = spawnSync(program, words, { input }).stdout.toString().trim().split("\n")[1].trim().split(/ +/).slice(2).map(Number);
  flow.advance(1);
  const frame = frameOf(flow), kicks = Math.round((0.2 * particles - px / 2) / 2);
  assert.ok(frame.fluid === fluid && frame.particles === particles, "fluid and particles");
  near("u before the flips", frame.u, px / 2 / particles, 1e-9);
  near("v", frame.v, (py * Math.sqrt(3)) / 2 / particles, 1e-9);
  near("the force", frame.force, (2 * kicks) / fluid, 1e-9);
  near("filling", frame.middle, 0.18, 0.003);
  flow.reverse();
  near("u on the way back", frameOf(flow, 0).u, -(px + 4 * kicks) / 2 / particles, 1e-9);
  near("blocked part", frame.blockage, 22 / (128 * Math.sqrt(0.75)), 0.02);
});

// a flow that is one cell per generation ahead of a plate, and rests elsewhere
test("a flow ahead of a plate", () => {
  const flow = new Flow(make(GASES.fhp1, 256, 64), { chirality: "left", seed: "0", generation: 0 });
  const isAhead = (at) => at % 256 < 100, isPlate = (at) => at % 256 >= 100 && at % 256 < 104 && Math.abs(Math.floor(at / 256) - 32) < 8;
  flow.cells.fill(Uint8Array.from({ length: 256 * 64 }, (_, at) => (isPlate(at) ? SOLID : isAhead(at) ? 0x01 : 0x09)));
  flow.begin();
  const frame = frameOf(flow);
  near("incoming speed", frame.incoming, 1, 1e-6);
  near("fastest block", frame.fastest, 1, 1e-6);
  near("blocked part of a plate", frame.blockage, 15 / 64, 1e-9);
});

// -- rows

test("a stripe's momentum stays in its rows in HPP, and spreads in FHP-I", () => {
  const { radius, fill: filling, size } = PRESETS["a stripe in HPP beside FHP's"], [width, height] = size.split(" x ").map(Number);
  for (const [gas, seed] of [["hpp", "1"], ["hpp", "2"], ["fhp1", "1"]]) {
    const flow = flowOf({ gas, width, height, filling, shape: "stripe", radius, seed }), rows = () => {
      const { columns, numbers } = flow.sums(32, 1), sums = new Array(height).fill(0);
      for (let k = 0; k < numbers.length; k += 4) sums[Math.floor(k / 4 / columns)] += numbers[k + 2];
      return sums;
    };
    const before = rows(), own = before.map((sum, y) => (sum > width / 2 ? y : -1)).filter((y) => y >= 0);
    assert.deepEqual([own.length, own[0]], [2 * radius, height / 2 - radius], `${gas}: the stripe is in the middle`);
    flow.advance(1000);
    const after = rows(), [particles, momentum] = flow.stripe(), of = (sums) => own.reduce((sum, y) => sum + sums[y], 0);
    near("what is shown of its momentum", momentum, of(after) / of(before), 1e-12);
    assert.ok(particles < 0.85, `${gas}: particles have left it: ${particles}`);
    if (gas === "hpp") assert.deepEqual(after, before, "each row has its momentum");
    else assert.ok(momentum < 0.3, `it has spread: ${momentum}`);
  }
});

// -- the probe

test("samples as a text", () => {
  const samples = [[10, 0.25, -0.5], [20, 1 / 3, 0]].map(([generation, u, v]) => ({ generation, u, v, incoming: null }));
  const lines = textOf(samples, { at: [3, 4], radius: 5 }).split("\n").filter((row) => !row.startsWith("#"));
  assert.deepEqual(lines, ["10 0.250000 -0.500000", "20 0.333333 0.000000", ""]);
});
const wave = (period, noise, random) => Array.from({ length: 6000 }, (_, k) => {
  const v = Math.sin((2 * Math.PI * 10 * k) / period) + noise * (random.chance() + random.chance() + random.chance() - 1.5);
  return { generation: 10 * k, u: 0, v, incoming: 0.3 };
});
for (const period of [1000, 2500, 4766]) test(`a wave of ${period} generations`, () => {
  const found = periodOf(wave(period, 1, lots(period)), period / 3);
  assert.ok(found && Math.abs(found.period / period - 1) < 0.02 && found.error < 0.05 * period, `a wave of ${period} generations: ${JSON.stringify(found)}`);
  assert.ok(Math.abs((found?.incoming ?? 0) - 0.3) < 1e-9, "its incoming speed");
});
test("seven periods are too few", () => assert.equal(periodOf(wave(8000, 0, lots(1)), 2500), null));

// Noise with a memory shows a period in at most 1 % of runs, looked at every 1,000 of 40,000 generations.
let shows = 0;
for (let run = 0; run < noises; run++) {
  const random = lots(7000 + run), memory = [0, Math.exp(-1 / 10), Math.exp(-1 / 40), Math.exp(-1 / 100)][run % 4], samples = [];
  const bell = () => Math.sqrt(-2 * Math.log(1 - random.chance())) * Math.cos(2 * Math.PI * random.chance());
  let v = 0, isShown = false;
  for (let k = 1; k <= 4000; k++) {
    v = memory * v + Math.sqrt(1 - memory ** 2) * bell();
    samples.push({ generation: 10 * k, u: 0, v, incoming: null });
    isShown ||= k % 100 === 0 && periodOf(samples, run % 8 < 4 ? 744 : 1500) !== null;
  }
  if (isShown) shows++;
}
test("noise shows no period", () => assert.ok(shows <= Math.max(0.01 * noises, 0), `${shows} of ${noises}`));

// -- the built page

const folder = mkdtempSync("/tmp/page-"), built = `${folder}/page.html`;
const done = spawnSync("node", [`${root}page/build.mjs`, built], { encoding: "utf8" }), old = readFileSync(`${root}page/fhpgas.html`, "utf8");
const isOther = done.stderr.includes(done.status ? "this is not esbuild" : "this is not ") && done.stderr, now = isOther || done.status ? done.stderr : readFileSync(built, "utf8");
test("page/fhpgas.html is what its sources make: run make page", { skip: isOther }, () => assert.ok(old === now, done.stderr));
test("page/fhpgas.html has at most 175 KB", () => assert.ok(Buffer.byteLength(old) <= 175_000));
if (done.stderr.includes("stays as it was")) console.log(`its kernel was not built again: ${done.stderr}`);
rmSync(folder, { recursive: true });
const types = spawnSync("tsc", ["-p", `${root}page`], { encoding: "utf8" });
test("the types of the page", { skip: types.error && "tsc is missing: apt-get install node-typescript" }, () => assert.equal(types.status, 0, types.stdout));
