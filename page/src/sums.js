// Sums over blocks of cells, by counting the bits of planes.

export const FINE = 2; // columns of blocks that are more work to add up than to count anew
const MOST_ROWS = 31; // of 8 columns, whose count a byte takes

/** The bits of each byte of a word, in that byte. */
function bytes(word) {
  const two = word - (word >>> 1 & 0x55555555), four = (two & 0x33333333) + (two >>> 2 & 0x33333333);
  return (four + (four >>> 4)) & 0x0f0f0f0f;
}

export const bits = (word) => Math.imul(bytes(word), 0x01010101) >>> 24;

/**
 * The sums of blocks whose width is 1, 2, 4, 8, 16 or 32, by rows from the top. `numbers` has four a block: fluid
 * cells, particles, and momenta in the gas's units.
 * @param {{ cells: Int32Array, solid: Int32Array, width: number, height: number, per: number, gas: any }} planes
 */
export function sumsOf(planes, wide, tall) {
  const { width, height, gas } = planes, columns = Math.ceil(width / wide), rows = Math.ceil(height / tall);
  const numbers = new Int32Array(4 * columns * rows), counts = new Int32Array(gas.directions);
  for (let y = 0, end = 0; y < height; y = end) {
    const row = Math.floor(y / tall), block = { numbers, first: row * columns, wide, counts };
    end = Math.min(height, (row + 1) * tall, y + MOST_ROWS);
    for (let x = 0; x < width; x += 32) {
      for (let from = 0; from < 8; from += wide) addWord(block, planes, x + from, y, end);
    }
  }
  return { columns, rows, width: wide, height: tall, numbers };
}

/** Adds at most 8 columns from x on, and those 8, 16 and 24 beside them, from row y on. */
function addWord(block, { cells, solid, width, per, gas: { directions, momenta } }, x, y, end) {
  const { numbers, first, wide, counts } = block;
  const part = Math.min(8, wide), mask = ((1 << part) - 1) * 0x01010101 << (x & 7), shift = Math.log2(wide);
  const word = y * per + (x >> 5), start = word + y * (directions - 1) * per, rows = end - y;
  const walls = countRows(solid, word, per, rows, mask);
  for (let i = 0; i < directions; i++) counts[i] = countRows(cells, start + i * per, directions * per, rows, mask);
  for (let byte = 0; byte < 32 && x + byte < width; byte += 8) {
    const at = 4 * (first + (x + byte >> shift));
    let particles = 0, east = 0, north = 0;
    for (let i = 0; i < directions; i++) {
      const count = counts[i] >>> byte & 255, momentum = momenta[i];
      particles += count;
      east += momentum[0] * count;
      north += momentum[1] * count;
    }
    numbers[at] += Math.min(part, width - x - byte) * rows - (walls >>> byte & 255);
    numbers[at + 1] += particles;
    numbers[at + 2] += east;
    numbers[at + 3] += north;
  }
}

/** The bits under a mask of a plane's word in some rows: of each byte in that byte. */
export function countRows(plane, at, stride, rows, mask) {
  let sum = 0;
  for (let y = 0; y < rows; y++, at += stride) sum += bytes(plane[at] & mask);
  return sum;
}

/** The sums of larger blocks, if each consists of whole smaller ones that are not fine, else null. */
export function gathered(sums, wide, tall) {
  const { width, height } = sums;
  return width <= FINE || wide % width || tall % height ? null : together(sums, wide / width, tall / height);
}

/** Of all blocks: fluid cells, particles, and the momenta eastwards and northwards. */
export const totalsOf = (sums) => Array.from(together(sums, sums.columns, sums.rows).numbers);

/** The sums of blocks that are so many smaller ones across and down. */
function together({ columns, rows, width, height, numbers }, across, down) {
  const fewer = Math.ceil(columns / across), lines = Math.ceil(rows / down), sums = new Int32Array(4 * fewer * lines);
  for (let y = 0, from = 0; y < rows; y++) {
    const first = 4 * fewer * Math.floor(y / down);
    for (let x = 0; x < columns; x++) {
      const to = first + 4 * Math.floor(x / across);
      for (let k = 0; k < 4; k++) sums[to + k] += numbers[from++];
    }
  }
  return { columns: fewer, rows: lines, width: width * across, height: height * down, numbers: sums };
}
