// The entropy of what a coarse look sees, as experiments/entropy.py has it: how many particles go each way in blocks of 8 x 8 cells.
import { countRows } from "./sums.js";

const SIDE = 8, MOST = SIDE * SIDE + 1;
const ofChance = (d) => (d > 0 && d < 1 ? -d * Math.log(d) - (1 - d) * Math.log(1 - d) : 0);
/** Of one direction in a block, by its fluid cells and its particles. */
const OF_BLOCK = Float64Array.from({ length: MOST * MOST }, (_, at) => {
  const cells = Math.floor(at / MOST);
  return cells && cells * ofChance((at % MOST) / cells);
});

/** Per fluid cell. Equal numbers are counted first, so that the way back has each digit of the way there. */
export function entropyOf({ cells, solid, width, height, per, gas: { directions } }) {
  const often = new Int32Array(MOST * MOST);
  let fluid = 0;
  for (let y = 0; y < height; y += SIDE) {
    const rows = Math.min(SIDE, height - y);
    for (let x = 0; x < width; x += 32) {
      const word = x >> 5, walls = countRows(solid, y * per + word, per, rows, -1);
      for (let i = 0; i < directions; i++) {
        const counts = countRows(cells, (y * directions + i) * per + word, directions * per, rows, -1);
        for (let byte = 0; byte < 32 && x + byte < width; byte += 8) {
          const room = Math.min(SIDE, width - x - byte) * rows - (walls >>> byte & 255);
          often[MOST * room + (counts >>> byte & 255)]++;
          if (!i) fluid += room;
        }
      }
    }
  }
  return often.reduce((sum, number, at) => sum + number * OF_BLOCK[at], 0) / (fluid || 1);
}
