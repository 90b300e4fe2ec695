// The kernel: WebAssembly with the calls of include/fhpgas.h, which owns a lattice's planes and advances them.
import { Cells } from "./cells.js";
import { SOLID, reversedStates, table } from "./gases.js";
import { bits } from "./sums.js";

const PUSH = 3; // numbers of an entry of Kernel.pushes
const CHIRALITIES = { seeded: 0, left: 1, right: 2 }; // of include/fhpgas.h
const INTERFACE = 3;
const BYTES = 0x01010101; // a bit of each byte of a word
const known = new WeakMap(); // what collisions make of states, by module and gas

/** The module of a text in base64. Its bytes may be deflated. */
export async function moduleOf(text) {
  const bytes = Uint8Array.from(atob(text), (letter) => letter.charCodeAt(0));
  if (bytes[0] === 0) return new WebAssembly.Module(bytes);
  const { DecompressionStream } = /** @type {any} */ (globalThis); // which tsc does not know
  const stream = new Blob([bytes]).stream().pipeThrough(new DecompressionStream("deflate"));
  return new WebAssembly.Module(await new Response(stream).arrayBuffer());
}

/** A row of solid cells, moved a column to the east (1), to the west (-1), or not at all. */
function shifted(row, columns, width) {
  const end = row.length - 1, top = (width - 1) & 31;
  if (columns > 0) return row.map((word, k) => word << 1 | (k ? row[k - 1] >>> 31 : row[end] >>> top & 1));
  if (columns < 0) return row.map((word, k) => word >>> 1 | (k < end ? row[k + 1] << 31 : (row[0] & 1) << top));
  return row;
}

/** A lattice's planes: `per` words of 32 cells a row and plane. Only this class knows the memory of its module. */
export class Kernel {
  /** Where walls give momentum: a word of a plane, the cells to which particles come back, and what each is given. */
  pushes = new Int32Array(0);

  /** @param {WebAssembly.Module} module @param {Gas} gas @param {number} width @param {number} height */
  constructor(module, gas, width, height) {
    /** @type {any} */
    this.calls = new WebAssembly.Instance(module).exports;
    if (this.calls.fhpgas_interface() !== INTERFACE) throw new Error("it is of another version than this page");
    this.module = module;
    this.gas = gas;
    this.width = width;
    this.height = height;
    this.per = 2 * Math.ceil(width / 64);
    this.end = Math.ceil(Number(this.calls.__heap_base.value) / 64) * 64;
    const work = this.calls.fhpgas_work_words(gas.number, width);
    this.number = /** @type {(value: any) => any} */ (typeof work === "bigint" ? BigInt : Number); // of a place or length
    this.states = this.room((height * gas.directions * this.per) / 2);
    this.walls = this.room((height * this.per) / 2);
    this.work = this.room(Number(work));
    this.unpacked = [this.room(Math.ceil((width * height) / 8))[0], this.number(width * height)]; // a byte per cell
    const { buffer } = this.calls.memory, seen = (room) => new Int32Array(buffer, Number(room[0]), 2 * Number(room[1]));
    this.cells = seen(this.states);
    this.solid = seen(this.walls);
    this.bytes = new Uint8Array(buffer, Number(this.unpacked[0]), width * height);
    this.wallsChanged();
  }

  /** Room for words of 64 bits, as a call is given it: where it is, and the number. */
  room(words) {
    const at = this.end, { memory } = this.calls;
    this.end += 64 * Math.ceil(words / 8);
    memory.grow(Math.max(0, Math.ceil((this.end - memory.buffer.byteLength) / 65536)));
    return [at, words].map(this.number);
  }

  call(name, ...values) {
    const status = this.calls[`fhpgas_${name}`](...values);
    if (status) throw new Error(`the engine refuses to ${name} with status ${status}`);
  }

  /** Some generations: all particles collide, then move. */
  advance(count, generation, chirality, seed) {
    const { gas, width, height, walls, states, work } = this, rooms = [...walls, ...states, ...work];
    const when = [BigInt(seed), BigInt(generation), BigInt(count)], size = [width, height, 0];
    this.call("advance", gas.number, CHIRALITIES[chirality], ...when, ...size, ...rooms);
  }

  /** Takes planes from the bits of the bytes. */
  pack(planes, room) {
    this.call("pack", planes, this.width, this.height, ...this.unpacked, ...room);
  }

  unpack(planes, room) {
    this.call("unpack", planes, this.width, this.height, ...room, ...this.unpacked);
  }

  /** Makes of the state of every cell what a table says: of cells x, x + 8, x + 16 and x + 24 at once. */
  change(table, cells = this.cells) {
    const { per, gas: { directions } } = this, made = new Int32Array(directions);
    for (let row = 0; row < cells.length; row += directions * per) {
      for (let word = row; word < row + per; word++) {
        made.fill(0);
        for (let bit = 0; bit < 8; bit++) {
          let states = 0, after = 0;
          for (let i = 0; i < directions; i++) states |= (cells[word + i * per] >>> bit & BYTES) << i;
          for (let byte = 0; byte < 32; byte += 8) after |= table[states >>> byte & 255] << byte;
          for (let i = 0; i < directions; i++) made[i] |= (after >>> i & BYTES) << bit;
        }
        for (let i = 0; i < directions; i++) cells[word + i * per] = made[i];
      }
    }
  }

  /** Finds where walls give momentum, after an edit of solid cells. */
  wallsChanged() {
    const { gas: { moves, directions, momenta }, solid, width, height, per } = this, words = Math.ceil(width / 32);
    const rowOf = (y) => solid.subarray(y * per, y * per + words), wall = new Int32Array(words).fill(-1), pushes = [];
    const isOpen = Array.from({ length: height }, (_, y) => rowOf(y).every((word) => !word));
    for (let y = 0; y < height; y++) {
      const inside = rowOf(y);
      moves.forEach(([down, even, odd], i) => {
        const row = y + down, [push] = momenta[i], at = (y * directions + i) * per;
        if (isOpen[row]) return;
        const behind = row < 0 || row === height ? wall : shifted(rowOf(row), row & 1 ? odd : even, width);
        behind.forEach((word, k) => word & ~inside[k] && push && pushes.push(at + k, word & ~inside[k], 2 * push));
      });
    }
    this.pushes = Int32Array.from(pushes);
  }

  /** The momentum eastwards that walls gave in the last generation, as a multiple of the gas's unit. */
  pushed() {
    const { pushes, cells } = this;
    let sum = 0;
    for (let k = 0; k < pushes.length; k += PUSH) sum += pushes[k + 2] * bits(cells[pushes[k]] & pushes[k + 1]);
    return sum;
  }
}

/** What a collision to a side makes of every state: a particle that would leave a cell between walls comes back. */
function collisions({ module, gas }, side) {
  const kernel = new Kernel(module, gas, 2 * SOLID, 1), cells = new Cells(kernel), reversed = reversedStates(gas);
  cells.fill(Uint8Array.from({ length: 2 * SOLID }, (_, at) => (at & 1 ? SOLID : (at / 2) % 2 ** gas.directions)));
  kernel.advance(1, 0, side, 0);
  return table((state) => reversed[cells.state(2 * state)]);
}

/** What collisions to both sides make of every state. */
export function sidesOf(kernel) {
  const { module, gas } = kernel, sides = known.get(module) ?? {};
  known.set(module, sides);
  return (sides[gas.name] ??= { left: collisions(kernel, "left"), right: collisions(kernel, "right") });
}

export function copied({ gas, width, height, cells, solid }, make) {
  const kernel = make(gas, width, height);
  kernel.cells.set(cells);
  kernel.solid.set(solid);
  kernel.wallsChanged();
  return kernel;
}
