// The worker: takes the page's commands between generations, advances the gas and sends frames.
import { Experiment } from "./experiment.js";
import { printed, sceneOf } from "./scenes.js";
import { cleared, dense } from "./tools.js";

const AHEAD = 2; // frames that are sent before one was painted
const FULL = 25, SHARE = 3; // milliseconds of generations in a frame at full speed, and at least so many times its own

/** The SHA-256 of what `fhpgas run` prints for the cells of a flow. */
async function hashOf(flow) {
  if (!crypto.subtle) return "browsers reckon it from files and over https only";
  const digest = await crypto.subtle.digest("SHA-256", new TextEncoder().encode(printed(flow)));
  return Array.from(new Uint8Array(digest), (byte) => byte.toString(16).padStart(2, "0")).join("");
}

/** @type {(work: Work, experiment: Experiment) => { [K in keyof Commands]: (value: Commands[K]) => any }} what commands do */
const actsOf = (work, experiment) => ({
  engine: async ({ text, isProved }) => work.post("engine", { isProved, ...(await experiment.take(text)) }),
  start: (command) => {
    experiment.start(command);
    work.rest();
  },
  open: (command) => {
    try {
      experiment.open(command);
      work.rest();
    } catch (fault) {
      work.post("fault", { fault: /** @type {Error} */ (fault).message, isRefused: true });
    }
  },
  run: ({ on, pace, asked: runs, isOther }) =>
    Object.assign(work, { isRunning: on && (isOther || !experiment.isBack), pace, runs, since: performance.now() }),
  step: () => (work.isStep = true),
  back: () => experiment.reverse((flow) => flow.back()),
  turn: () => experiment.reverse((flow) => flow.reverse()),
  undo: () => experiment.undo(),
  redo: () => experiment.redo(),
  clear: () => experiment.act("clear", cleared),
  save: () => work.save(),
  seen: () => work.sent--,
  hash: ({ isWanted }) => (work.isHashWanted = isWanted),
  view: (view) => (work.view = view),
  chirality: ({ chirality }) => experiment.each((flow) => flow.setChirality(chirality)),
  gas: (command) => experiment.changeGas(command),
  keep: ({ wind }) => experiment.each((flow) => flow.isForward() && flow.drive.keep(wind)),
  stroke: (piece) => {
    work.pieces++;
    experiment.stroke(piece);
  },
  dense: (disc) => experiment.act("burst", (flow) => dense(flow, disc)),
  flip: ({ at }) => experiment.flip(at),
  probe: (disc) => experiment.watched.forEach((watched) => watched.probe(disc)),
});

class Work {
  experiment = new Experiment();
  queue = /** @type {{ name: keyof Commands, value: any }[]} */ ([]);
  /** @type {View} */
  view = { field: "vorticity", block: 8, smooth: 2, span: 1, window: null };
  isRunning = false;
  runs = 0; // the last that the page asked for
  isStep = false; // one generation is wanted
  isBusy = false;
  isNew = false; // there is something to show
  sent = 0; // frames that were not painted
  generations = 0; // since the last frame
  pieces = 0; // of strokes, since then
  pace = Infinity; // generations per second
  since = 0; // when those that are done were due
  most = 1; // generations of a frame at full speed
  drawn = 0; // milliseconds of the last frame
  timer = 0;
  isHashWanted = false;
  wanted = {}; // the last hash
  channel = new MessageChannel();
  acts = actsOf(this, this.experiment);

  /** @template {keyof Answers} K @param {K} name @param {Answers[K]} value */
  post(name, value) {
    postMessage({ name, value });
  }

  rest() {
    Object.assign(this, { isRunning: false, isStep: false, generations: 0, most: 1 });
  }

  /** @template {keyof Commands} K @param {K} name @param {Commands[K]} value */
  take(name, value) {
    if (name === "seen") this.act(name, value);
    else this.queue.push({ name, value });
    this.work();
  }

  /** @param {keyof Commands} name */
  async act(name, value) {
    await this.acts[name](value);
    this.isNew ||= name !== "seen";
  }

  /** How many generations the pace asks for now, and a frame has time for. */
  get due() {
    const { isStep, isRunning, most, pace, since } = this;
    if (isStep || !isRunning) return Number(isStep);
    return pace < Infinity ? Math.min(most, Math.floor((performance.now() - since) * pace / 1000)) : most;
  }

  get canMove() {
    return this.experiment.watched.length > 0 && (this.isRunning || this.isStep) && this.sent < AHEAD;
  }

  async work() {
    if (this.isBusy) return;
    clearTimeout(this.timer);
    for (this.isBusy = true; this.queue.length || this.isNew || (this.canMove && this.due); ) {
      try {
        for (const { name, value } of this.queue.splice(0)) await this.act(name, value);
        if (this.canMove && this.due) this.advance();
        if (this.isNew && this.experiment.watched.length) this.frame();
      } catch (fault) {
        this.rest();
        this.post("fault", { fault: /** @type {Error} */ (fault).message, isRefused: false });
      }
      this.isNew = false;
      await new Promise((go) => {
        this.channel.port1.onmessage = go;
        this.channel.port2.postMessage(0);
      });
    }
    this.isBusy = false;
    if (this.canMove) this.timer = setTimeout(() => this.work(), this.since + 1000 / this.pace - performance.now());
  }

  advance() {
    const { due: generations, most, isStep, pace, drawn, experiment: { watched } } = this, begun = performance.now();
    this.since = isStep || generations === most ? begun : this.since + 1000 * generations / pace;
    this.isStep = false;
    this.generations += generations;
    for (const one of watched) one.advance(generations);
    const each = (performance.now() - begun) / generations || 0.01;
    this.most = Math.max(1, Math.min(2 * most, Math.round(Math.max(FULL, SHARE * drawn) / each)));
    if (this.experiment.isBack) this.isRunning = false;
    this.isNew = true;
  }

  frame() {
    const { experiment: { watched, serial, asked, state, past, undone, make }, isRunning, runs, pieces: strokes } = this;
    if (this.view.field === "difference") watched.forEach((one) => one.renew(make));
    const begun = performance.now(), frames = watched.map((one) => one.frame(this.view, this.generations));
    this.drawn = performance.now() - begun;
    this.generations = this.pieces = 0;
    this.sent++;
    const [undoes, redoes] = [past, undone].map((done) => done[done.length - 1]?.what ?? "");
    this.post("frames", { frames, isRunning, runs, serial, asked, state, strokes, undoes, redoes });
    if (!isRunning && this.isHashWanted) this.hash();
  }

  save() {
    const nameOf = ({ gas, generation }) => `${gas.name}-${generation}`;
    this.post("files", { files: this.experiment.watched.map(({ flow }) => ({ text: sceneOf(flow), name: nameOf(flow) })) });
  }

  /** Hashes the cells that are shown, once they stay. */
  async hash() {
    const wanted = (this.wanted = {});
    await new Promise((go) => setTimeout(go, 200));
    if (wanted !== this.wanted || this.isRunning || this.isBusy) return;
    const hashes = await Promise.all(this.experiment.watched.map(({ flow }) => hashOf(flow)));
    if (wanted === this.wanted) this.post("hashes", { hashes });
  }
}

const work = new Work();
onmessage = ({ data }) => work.take(data.name, data.value);
