// A gas that runs: its cells, the drive, and the way back, on which what was done to the cells is undone.
import { Cells } from "./cells.js";
import { Drive } from "./drive.js";
import { entropyOf } from "./entropy.js";
import { OTHER, SOLID, reversedStates } from "./gases.js";
import { CELL, History, WAS_SOLID } from "./history.js";
import { copied, sidesOf } from "./kernel.js";
import { count } from "./numbers.js";
import { FINE, sumsOf, totalsOf } from "./sums.js";

export class Flow {
  direction = 1; // -1 on the way back
  changes = 0; // counts what happens to the cells
  isDisturbed = false; // something was changed that the way back does not undo
  isMessage = false; // nothing that is done to its cells is undone on the way back
  stripe = /** @type {(() => number[]) | null} */ (null);
  way = /** @type {number[][]} */ ([]); // generations and entropies of a message, until it is noise
  late = new Set(); // strokes on the way back
  found = /** @type {number | null} */ (null); // cells that differ from the first ones, once the gas is back
  notes = /** @type {string[]} */ ([]); // what the page is to say
  mark = /** @type {{ at: Place, generation: number } | null} */ (null); // the particle that was flipped
  shape = /** @type {Int32Array | null} */ (null); // the solid cells that the preset has
  summed = { changes: -1, totals: [0, 0, 0, 0] };
  history = new History();

  /** @param {Kernel} kernel @param {{ chirality: Chirality, seed: string, generation: number, wind?: number | null }} course */
  constructor(kernel, { chirality, seed, generation, wind = null }) {
    this.kernel = kernel;
    this.gas = kernel.gas;
    this.cells = new Cells(kernel);
    this.chirality = chirality;
    this.seed = seed;
    this.generation = this.reversedAt = generation;
    this.reversed = reversedStates(this.gas);
    this.sides = sidesOf(kernel);
    this.drive = new Drive(wind, seed);
    this.begin();
  }

  /** From here on the way back is exact. */
  begin() {
    this.history.begin(this.generation, this.cells);
    this.isDisturbed = false;
    this.late.clear();
    this.cells.isBuilt = true;
    this.changes++;
    this.kernel.wallsChanged();
  }

  moveTo(make) {
    this.kernel = this.cells.kernel = copied(this.kernel, make);
  }

  /** The rows of a block that is as high as wide, of the widest those of two others, so that these are gathered. */
  tall(wide) {
    return wide > 16 ? 2 * this.tall(wide / 2) : Math.max(1, Math.round(wide / this.gas.apart));
  }

  /** Sums of blocks, 1, 2, 4, 8, 16 or 32 columns wide, and by the way of all cells, if the blocks are few. */
  sums(wide, tall) {
    const sums = sumsOf(this.kernel, wide, tall);
    if (wide > FINE) this.summed = { changes: this.changes, totals: totalsOf(sums) };
    return sums;
  }

  /** Of all cells: fluid, particles, and momenta as multiples of the gas's units. */
  totals() {
    if (this.summed.changes !== this.changes) this.sums(32, this.cells.height);
    return this.summed.totals;
  }

  get canReverse() {
    return this.chirality !== "seeded" || !this.gas.isHexagonal;
  }

  /** The generation of these cells as a scene: on the way back it counts from where that begins. */
  get sceneGeneration() {
    return this.direction > 0 ? this.generation : this.reversedAt - this.generation;
  }

  /** What edits and the drive flip is remembered with its generation. */
  flip(at, bits) {
    if (this.direction < 0 || this.isMessage) this.isDisturbed = true;
    else if (this.canReverse) this.history.flip(this.generation, this.cells, at, bits);
    this.cells.flip(at, bits);
  }

  /** Flips bits of cells, as an edit, perhaps as a piece of a stroke. */
  edit(flips, stroke) {
    let isBuilt = false;
    this.changes++;
    this.summed.changes = -1; // undoing a stroke sets changes back
    for (const [at, bits] of flips) {
      this.flip(at, bits);
      isBuilt ||= (bits & SOLID) > 0;
    }
    if (isBuilt) this.kernel.wallsChanged();
    if (stroke) (this.direction < 0 ? this.late : this.history.last?.strokes)?.add(stroke);
  }

  /** Whether particles are as they move forwards, so that the rules can change. If not, it says so. */
  isForward() {
    if (this.direction < 0) this.notes.push("The gas is going back. Turn it first.");
    return this.direction > 0;
  }

  setChirality(chirality) {
    if (!this.isForward()) return;
    const before = this.chirality, couldReverse = this.canReverse;
    this.changes++;
    this.chirality = chirality;
    if (couldReverse && this.canReverse) this.history.open(this.generation, this.cells, before);
    else this.begin();
  }

  advance(generations) {
    if (this.direction < 0) this.recede(generations);
    else if (this.drive.wind === null) this.run(generations);
    else this.drive.blow(this, generations);
  }

  run(generations) {
    this.changes++;
    this.kernel.advance(generations, this.sceneGeneration, this.chirality, this.seed);
    this.generation += this.direction * generations;
    if (this.direction > 0) this.found = null;
  }

  reverse() {
    this.reverseCells();
    this.found = null;
    this.drive.keep(this.drive.wind); // its means are of another time
    if (this.direction < 0) {
      this.reversedAt = this.generation;
      this.undo();
    } else if (this.isDisturbed) this.begin();
  }

  /** One generation back: all particles are reversed for it. */
  back() {
    const { direction } = this;
    this.reverse();
    this.advance(1);
    if (this.direction !== direction) this.reverse();
  }

  /**
   * All particles are reversed. A generation collides and then moves, backwards it moves and then collides: so particles
   * collide before they are reversed, and at the end collide back, to the other side. docs/PROVED.md has the proof.
   */
  reverseCells() {
    this.changes++;
    this.kernel.change(this.turned);
    this.chirality = OTHER[this.chirality];
    this.direction *= -1;
  }

  get turned() {
    const { reversed, sides, chirality, direction } = this, side = chirality === "left" ? sides.left : sides.right;
    return direction > 0 ? side.map((state) => reversed[state]) : reversed.map((state) => side[state]);
  }

  /** The entropy of the cells as they are forwards in time, so that the way back has those of the way there. */
  get entropy() {
    const { kernel, kernel: { solid, width, height, per, gas }, direction } = this, cells = direction > 0 ? kernel.cells : kernel.cells.slice();
    if (direction < 0) kernel.change(this.turned, cells);
    return entropyOf({ cells, solid, width, height, per, gas });
  }

  /** Some generations back, to the start at most. */
  recede(wanted) {
    const { history, generation: first } = this;
    while (first - this.generation < wanted) {
      const next = Math.max(first - wanted, history.last?.generation ?? history.origin.generation);
      this.run(this.generation - next);
      this.undo();
      if (this.generation <= history.origin.generation) return this.arrive();
    }
  }

  /** The way back ends here: cells are compared. */
  arrive() {
    const { isCut, origin: { generation, kept } } = this.history;
    const begins = `The way back begins at generation ${count(generation)}`;
    if (isCut) this.notes.push(`${begins}: what was done before took more than 64 MB.`);
    this.reverse();
    this.found = this.cells.differing(kept);
    this.begin();
  }

  /** Undoes what was done in this generation. */
  undo() {
    for (let patch; (patch = this.history.pop(this.generation)); ) {
      const { flips, sideBefore } = patch, walls = wallsBefore(flips);
      if (sideBefore) this.reverseCells();
      else if (this.isDisturbed) this.undoWalls(walls);
      else this.undoFlips(flips);
      if (sideBefore) Object.assign(this, { chirality: sideBefore }).reverseCells();
      for (const stroke of [...patch.strokes, ...this.late]) for (const at of walls.keys()) stroke.flips.delete(at);
      if (walls.size) this.kernel.wallsChanged();
    }
  }

  /** Cell by cell, since colliding and reversing need no neighbours. */
  undoFlips(flips) {
    const { reversed, cells, chirality, sides: { left, right } } = this;
    const [side, other] = chirality === "right" ? [right, left] : [left, right];
    for (const flip of flips.reverse()) {
      const place = Math.floor(flip / CELL), state = cells.state(place), before = side[reversed[state]] ^ flip & 255;
      cells.flip(place, state ^ reversed[other[before]]);
    }
  }

  /** Once cells have been disturbed, the particles that an edit moved are others, and only its obstacles are undone. */
  undoWalls(walls) {
    const { cells } = this, unlike = [...walls.keys()].filter((at) => cells.isSolid(at) !== walls.get(at));
    if (!unlike.length) return;
    this.reverseCells();
    cells.rebuilt(unlike)?.flips.forEach((bits, at) => cells.flip(at, bits));
    this.reverseCells();
  }
}

/** Which cells were solid before, of those that became solid or fluid. */
function wallsBefore(flips) {
  const built = flips.filter((flip) => flip & SOLID).reverse();
  return new Map(built.map((flip) => [Math.floor(flip / CELL), (flip & WAS_SOLID) > 0]));
}
