// What was done to the cells and when, so that the way back can undo it: flipped bits, by cell and generation.
import { SOLID } from "./gases.js";

const MOST_SEGMENTS = 4;
const PATCH = 100, FLIP = 8; // bytes that they take
export const CELL = 512, WAS_SOLID = 256;

/**
 * @typedef {import("./cells.js").Cells} Cells
 * @typedef {{ generation: number, flips: number[], strokes: Set<import("./tools.js").Stroke>, sideBefore?: Chirality }} Patch
 *   CELL times a cell, with its bits, and WAS_SOLID; or the chirality before a change of it
 * @typedef {{ generation: number, kept: ReturnType<Cells["kept"]>, patches: Patch[], bytes: number }} Segment
 *   the cells of a generation, and what was done from then on
 */

export class History {
  segments = /** @type {Segment[]} */ ([]);
  isCut = false; // old patches were given up
  most = 64 * 2 ** 20; // bytes of patches that are kept

  /** The cells and the generation that the way back reaches. */
  get origin() {
    return this.segments[0];
  }

  get top() {
    return this.segments[this.segments.length - 1];
  }

  get last() {
    while (this.segments.length > 1 && !this.top.patches.length) this.segments.pop();
    return this.top.patches[this.top.patches.length - 1];
  }

  begin(generation, cells) {
    this.segments = [];
    this.grow(generation, cells);
    this.isCut = false;
  }

  grow(generation, cells) {
    this.segments.push({ generation, kept: cells.kept(), patches: [], bytes: 0 });
    this.isCut ||= this.segments.length > MOST_SEGMENTS;
    this.segments.splice(0, this.segments.length - MOST_SEGMENTS);
  }

  open(generation, cells, sideBefore) {
    if (this.top.bytes > this.most / MOST_SEGMENTS && this.top.generation < generation) this.grow(generation, cells);
    this.top.patches.push({ generation, flips: [], strokes: new Set(), sideBefore });
    this.top.bytes += PATCH;
  }

  flip(generation, cells, at, bits) {
    if (this.last?.generation !== generation || this.last.sideBefore) this.open(generation, cells);
    this.last.flips.push(CELL * at + bits + (bits & SOLID && cells.isSolid(at) ? WAS_SOLID : 0));
    this.top.bytes += FLIP;
  }

  /** Takes the last patch away, if it is of this generation. */
  pop(generation) {
    if (this.last?.generation !== generation) return undefined;
    const { top } = this, patch = /** @type {Patch} */ (top.patches.pop());
    top.bytes -= PATCH + FLIP * patch.flips.length;
    return patch;
  }
}
