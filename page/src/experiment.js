// The flows that the page shows, how they begin, and what can be undone.
import { Watched } from "./frames.js";
import { GASES, MOST_CELLS, SOLID } from "./gases.js";
import { Kernel, moduleOf } from "./kernel.js";
import { count } from "./numbers.js";
import { flowOf, readScene } from "./scenes.js";
import { drawn } from "./starts.js";
import { Stroke } from "./tools.js";

const MOST_UNDO = 50, MOST_STARTS = 4; // of which each keeps a lattice

export class Experiment {
  make = /** @type {MakeKernel} */ (() => { throw new Error("there is no kernel"); });
  watched = /** @type {Watched[]} */ ([]);
  state = ""; // of the controls, with these flows
  serial = 0;
  asked = 0; // the start of the page's that was made last
  past = /** @type {{ what: string, undo: () => (() => void) }[]} */ ([]); // what can be undone, as the button says it
  undone = /** @type {{ what: string, redo: () => void }[]} */ ([]); // and what can be done again
  strokes = /** @type {Map<Flow, Stroke>} */ (new Map()); // what is being drawn
  pieces = /** @type {Piece[]} */ ([]); // of it

  /** Takes the module of a text: all flows go on in it. */
  async take(text) {
    try {
      const module = await moduleOf(text);
      new Kernel(module, Object.values(GASES)[0], 1, 1); // of another version it throws
      this.make = (gas, width, height) => new Kernel(module, gas, width, height);
    } catch (refused) {
      return { fault: String(refused) };
    }
    this.move(this.watched);
    return { fault: "" };
  }

  move(watched) {
    for (const { flow, twin } of watched) [flow, twin].forEach((one) => one?.moveTo(this.make));
  }

  /** What was done can be undone, the last first. To undo it returns what does it again. */
  did(what, undo) {
    this.past.push({ what, undo });
    this.undone = [];
    const starts = this.past.flatMap((one, k) => (/start|gas/.test(one.what) ? k : []));
    const oldest = starts.length > MOST_STARTS ? starts[starts.length - MOST_STARTS] : 0;
    this.past.splice(0, Math.max(oldest, this.past.length - MOST_UNDO));
  }

  /** New flows. The ones before can be had again. */
  begun(flows, state) {
    const number = flows.reduce((sum, { cells }) => sum + cells.number, 0);
    if (number > MOST_CELLS) throw new Error(`${count(number)} cells, and at most ${count(MOST_CELLS)}`);
    if (this.watched.length) this.keepOld("start");
    this.show(flows.map((flow) => new Watched(flow)), state);
  }

  keepOld(what) {
    const { watched, state } = this;
    this.did(what, () => {
      const late = [this.watched, this.state];
      this.back(watched, state);
      return () => (this.keepOld(what), this.back(...late));
    });
  }

  back(watched, state) {
    this.move(watched);
    this.show(watched, state);
  }

  show(watched, state) {
    Object.assign(this, { watched, state });
    this.serial++;
    watched.forEach(({ flow }) => (flow.cells.isBuilt = true));
  }

  start({ starts, state, asked = this.asked }) {
    this.asked = asked;
    this.begun(starts.map((start) => drawn(this.make, start)), state);
  }

  open({ text, state }) {
    this.begun([flowOf(this.make, readScene(text, MOST_CELLS))], state);
  }

  /** The same cells with another gas, if they can be its cells, else a new start. */
  changeGas({ gas: name, starts, state }) {
    const gas = GASES[name], states = this.watched.map(({ flow }) => flow.cells.states());
    const fits = this.watched.every(({ flow }, k) => flow.direction > 0 && flow.gas.isHexagonal === gas.isHexagonal
      && states[k].every((cell) => cell < 1 << gas.directions || cell === SOLID));
    if (!fits) {
      this.start({ starts, state });
      return void this.watched[0].flow.notes.push(`These cells cannot be cells of ${name}, so this is a new start.`);
    }
    const flows = this.watched.map(({ flow }, k) => {
      const { cells: { width, height }, chirality, seed, sceneGeneration: generation, drive: { wind }, shape } = flow;
      const made = flowOf(this.make, { gas, width, height, states: states[k], chirality, seed, generation, wind });
      return Object.assign(made, { shape });
    });
    this.keepOld("gas");
    this.watched = flows.map((flow) => new Watched(flow));
  }

  /** Changes flows, which are then no longer like their twins. */
  each(change) {
    for (const watched of this.watched) {
      watched.twin = null;
      change(watched.flow);
    }
  }

  reverse(change) {
    if (this.watched.every(({ flow }) => flow.canReverse)) this.each(change);
  }

  stroke(piece) {
    this.pieces.push(piece);
    this.each((flow) => {
      const stroke = this.strokes.get(flow) ?? new Stroke();
      this.strokes.set(flow, stroke);
      stroke.set(flow, flow.cells.near(piece.from, piece.to, piece.radius), piece.solid);
      if (piece.end) stroke.tell(flow, piece.solid);
    });
    if (!piece.end) return;
    const strokes = [...this.strokes].filter(([, { flips }]) => flips.size), pieces = this.pieces.splice(0);
    const undo = () => {
      strokes.forEach(([flow, stroke]) => stroke.undo(flow));
      return () => pieces.forEach((one) => this.stroke(one));
    };
    if (strokes.length) this.did("stroke", undo);
    this.strokes.clear();
  }

  /** Does something to all flows that returns what undoes it. @param {(flow: Flow) => () => void} act */
  act(what, act) {
    const undone = /** @type {(() => void)[]} */ ([]);
    this.each((flow) => undone.push(act(flow)));
    this.did(what, () => {
      undone.forEach((undo) => undo());
      return () => this.act(what, act);
    });
  }

  /** Flips one particle, and goes on beside it without this flip. */
  flip(at) {
    const undone = this.watched.flatMap((watched) => watched.flip(this.make, at) ?? []);
    if (!undone.length) return;
    this.did("turn", () => {
      for (const watched of this.watched) watched.cone = null;
      undone.forEach((undo) => undo());
      return () => this.flip(at);
    });
  }

  undo() {
    for (const watched of this.watched) watched.twin = null;
    const last = this.past.pop();
    if (last) this.undone.push({ what: last.what, redo: last.undo() });
  }

  redo() {
    const { undone } = this;
    undone.pop()?.redo();
    this.undone = undone;
  }

  /** Whether all flows have come back to their start, and rest there. */
  get isBack() {
    return this.watched.every(({ flow }) => flow.found !== null);
  }
}
