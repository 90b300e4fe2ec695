// What the mouse does to a gas: obstacles are drawn, erased and cleared, a disc gets dense, one particle is flipped.
import { SOLID } from "./gases.js";
import { count } from "./numbers.js";

const NO_PLACE = "The particles in the way find no place";
const NEAREST = "went to the nearest free places of their direction";

/** Draws and erases: what a stroke flipped, so that it can be undone, and what it changed. */
export class Stroke {
  flips = /** @type {Map<number, number>} */ (new Map()); // bits by cell
  before = -1; // the flow's changes before the stroke, and after it
  after = -1;
  isMixed = false; // with other changes
  isDrawn = false; // not erased
  wasDisturbed = false; // the flow, before
  cells = 0;
  moved = 0;

  set(flow, near, isDrawn) {
    const { cells } = flow, places = near.filter((at) => cells.isSolid(at) !== isDrawn), found = cells.rebuilt(places);
    if (!found) return void flow.notes.push(`${NO_PLACE}: nothing was drawn there.`);
    if (this.before < 0) Object.assign(this, { before: flow.changes, isDrawn, wasDisturbed: flow.isDisturbed });
    else if (this.after !== flow.changes) this.isMixed = true;
    flow.edit(found.flips, this);
    this.after = flow.changes;
    for (const [at, bits] of found.flips) this.flips.set(at, (this.flips.get(at) ?? 0) ^ bits);
    this.cells += places.length;
    this.moved += found.moved;
  }

  tell({ notes }, isDrawn) {
    const cells = count(this.cells), moved = count(this.moved);
    notes.push(isDrawn ? `${cells} cells are solid now. ${moved} particles were beneath and ${NEAREST}.`
      : `${cells} solid cells are fluid now, and empty.`);
  }

  /**
   * If nothing happened since, all that the stroke moved goes back, else its obstacles do. Those that the way back has
   * undone are not in `flips` any more.
   */
  undo(flow) {
    const { cells } = flow, isExact = !this.isMixed && this.after === flow.changes;
    const walls = [...this.flips.keys()].filter((at) => (this.flips.get(at) ?? 0) & SOLID);
    const why = this.cells ? "The way back has undone the last stroke already." : "The last stroke changed nothing.";
    if (!walls.length) return void flow.notes.push(why);
    const found = isExact ? this : cells.rebuilt(walls.filter((at) => cells.isSolid(at) === this.isDrawn));
    if (!found) return void flow.notes.push(`${NO_PLACE}: nothing is undone.`);
    flow.edit(found.flips);
    if (isExact) Object.assign(flow, { changes: this.before, isDisturbed: this.wasDisturbed });
    flow.notes.push(isExact ? "The last stroke is undone."
      : "The obstacles of the last stroke are undone. The particles have moved on since then.");
  }
}

/** Takes all obstacles away, and returns what undoes it. */
export function cleared(flow) {
  const stroke = new Stroke(), all = Array.from({ length: flow.cells.number }, (_, at) => at);
  stroke.set(flow, all, false);
  stroke.tell(flow, false);
  return () => stroke.undo(flow);
}

/** What undoes an edit by flipping the same bits again, if nothing happened since. */
function undoing(flow, flips, what, { changes, isDisturbed, mark }, undo = () => 0) {
  const after = flow.changes;
  return () => {
    const isExact = flow.changes === after;
    if (isExact) (undo(), flow.edit(flips), Object.assign(flow, { changes, isDisturbed, mark }));
    flow.notes.push(isExact ? `The ${what} is undone.`
      : `The particles have moved on since the ${what}: only time that runs back (r) undoes it.`);
  };
}

/**
 * Fills a disc with particles that are taken at random from everywhere else: number and momentum of all stay. Returns what undoes it.
 */
export function dense(flow, { at, radius }) {
  const { cells, gas, drive } = flow, before = { ...flow }, { random } = drive, flips = /** @type {number[][]} */ ([]);
  const inside = new Set(cells.near(at, at, radius)), isIn = (place) => inside.has(place);
  for (let i = 0; i < gas.directions; i++) {
    for (const to of inside) {
      if (cells.state(to) & (SOLID | 1 << i) || drive.draw() > 0.7) continue;
      const from = cells.pick(drive.draw, i, i, isIn);
      if (from === undefined) break;
      flips.push([from, 1 << i], [to, 1 << i]);
      flow.edit(flips.slice(-2));
    }
  }
  flow.notes.push(`${count(flips.length / 2)} particles went into the disc, and were taken from everywhere else.`);
  return undoing(flow, flips, "burst", before, () => (drive.random = random));
}

/** Flips the particle that is nearest to a place and has room, and returns what undoes it. */
export function flipOne(flow, place) {
  const { cells, reversed } = flow;
  for (let radius = 1; radius < 20; radius++) {
    for (const at of cells.near(place, place, radius)) {
      const state = cells.state(at), free = state < SOLID ? state & ~reversed[state] : 0, alone = free & -free;
      if (!alone) continue;
      const before = { ...flow }, flips = [[at, alone | reversed[alone]]];
      flow.edit(flips);
      flow.mark = { at: cells.placeOf(at), generation: flow.generation };
      const all = count(flow.totals()[1]), cell = `column ${at % cells.width}, row ${Math.floor(at / cells.width)}`;
      flow.notes.push(`One of ${all} particles was turned: ${cell}.`);
      return undoing(flow, flips, "turn", before);
    }
  }
  flow.notes.push("No particle there can be turned.");
}
