// The picture of a lattice: its field, its obstacles, single cells, and what is drawn on it.
import { imageOf, line, theme, within } from "./draw.js";
import { FIELDS } from "./fields.js";
import { GASES, SOLID, eastOf, velocities } from "./gases.js";
import { marks } from "./state.js";
import { paintTheory } from "./theory.js";
import { Tracers } from "./tracers.js";

const FAINT = 0.3; // the field behind single cells
const MOST_PIXELS = 16000; // across a canvas
const WALL = (255 << 24) | (0x8c << 16) | (0x82 << 8) | 0x78; // the style sheet's --wall
export const coloursOf = (name) => FIELDS[name].palette[theme.isDark ? FIELDS[name].palette.length - 1 : 0];

/** What is kept of a lattice from frame to frame. `walls` are its solid cells, and where they are. */
export const paneOf = () => ({ tracers: new Tracers(), field: document.createElement("canvas"),
  walls: /** @type {ReturnType<typeof wallsOf>} */ (null) });

const eachSolid = (plane, per, act) => plane.forEach((word, k) => {
  const x = 32 * (k % per) + 31, y = Math.floor(k / per);
  for (let rest = word; rest; rest &= rest - 1) act(x - Math.clz32(rest & -rest), y);
});

/** Solid cells, two pixels each, because odd rows of the triangular lattice lie half a cell to the east. */
export function wallsOf({ width, height, apart, per }, plane) {
  const wide = apart < 1 ? 2 : 1, step = Math.ceil((wide * width + 1) / MOST_PIXELS);
  let [west, east, north, south] = [width, -1, height, -1];
  eachSolid(plane, per, (x, y) => {
    [west, east] = [Math.min(west, x), Math.max(east, x)];
    [north, south] = [Math.min(north, y), Math.max(south, y)];
  });
  if (east < 0) return null;
  const columns = Math.ceil((wide * (east - west + 1) + wide - 1) / step), rows = south - north + 1;
  const image = imageOf(document.createElement("canvas"), columns, rows, (out) => eachSolid(plane, per, (x, y) => {
    const from = wide * (x - west + eastOf({ apart }, y));
    for (let k = 0; k < wide; k++) out[(y - north) * columns + Math.floor((from + k) / step)] = WALL;
  }));
  return { image, x: west - 0.5, y: (north - 0.5) * apart, width: (columns * step) / wide, height: rows * apart };
}

/** Paints a lattice, whose first cell is in the middle of the canvas's origin. */
export function paintLattice(c, frame, scale, { walls, tracers, field }, hasTracers, moment) {
  const { width, height, apart, columns, rows, block, blockRows, cells, pixels } = frame, half = eastOf(frame, 1) / 2;
  const [left, top, tall] = [(half - 0.5) * scale, (-apart / 2) * scale, height * apart * scale];
  const colours = coloursOf(frame.field), [across, down] = [width / block, height / blockRows]; // last blocks jut out
  c.globalAlpha = cells ? FAINT : 1;
  c.imageSmoothingEnabled = block > 1;
  imageOf(field, columns, rows, (out) => {
    for (let i = 0; i < pixels.length; i++) out[i] = colours[pixels[i]];
  });
  if (!cells || block > 1) c.drawImage(field, 0, 0, across, down, left, top, width * scale, tall);
  c.globalAlpha = 1;
  if (hasTracers && !cells) tracers.paint(c, frame, scale);
  c.imageSmoothingEnabled = scale < 2;
  if (cells) paintCells(c, frame, scale, cells, moment);
  else if (walls) c.drawImage(walls.image, ...["x", "y", "width", "height"].map((part) => walls[part] * scale));
  const ends = [left - half * scale, left + (width + half) * scale];
  for (const y of [top - 1, top + tall + 1]) line(c, ends.map((x) => [x, y]), theme.ink, 3);
  paintTheory(c, frame, scale, walls);
  paintMarks(c, frame, scale);
}

function paintMarks(c, { mark, generation, width, height, apart }, scale) {
  const scaled = (at) => at.map((part) => part * scale);
  c.lineCap = "round";
  for (const { from, to: [x, y], radius, solid } of marks.pieces) {
    line(c, [from, [x + 0.01, y]].map(scaled), solid ? theme.wall : theme.paper, 2 * radius * scale);
  }
  // nothing is faster than a cell per generation: what a flipped particle can have changed lies in this circle
  const reach = mark && { at: mark.at, radius: Math.abs(generation - mark.generation) + 1.5 };
  for (const disc of [marks.probe, marks.touched, marks.cursor]) if (disc) paintDisc(c, scaled(disc.at), disc.radius * scale);
  if (!reach || reach.radius >= width) return;
  within(c, -scale, -scale, (width + 1) * scale, (height * apart + 1) * scale, () => {
    for (const lap of [-1, 0, 1]) { // it goes on at the other end
      paintDisc(c, scaled([reach.at[0] + lap * width, reach.at[1]]), reach.radius * scale);
    }
  });
}

/** A disc of the probe, or where a tool was used of which the worker has not said what came of it. */
function paintDisc(c, [x, y], radius) {
  const r = Math.max(6, radius);
  for (const [colour, wide] of [["#fff", 6], ["#000", 2.5]]) {
    for (const [dx, dy] of [[1, 0], [0, 1], [-1, 0], [0, -1]]) {
      line(c, [r, r + 9].map((at) => [x + at * dx, y + at * dy]), String(colour), Number(wide));
    }
    c.beginPath();
    c.arc(x, y, r, 0, 7);
    c.stroke();
  }
}

function dot(path, x, y, radius) {
  path.moveTo(x + radius, y);
  path.arc(x, y, radius, 0, 7);
}

function arrow(path, cx, cy, [dx, dy], from, scale) {
  const x = cx + (from + 0.36) * dx * scale, y = cy + (from + 0.36) * dy * scale, wing = 0.14 * scale;
  path.moveTo(cx + from * dx * scale, cy + from * dy * scale);
  path.lineTo(x, y);
  path.moveTo(x - wing * (dx - 0.7 * dy), y - wing * (dy + 0.7 * dx));
  path.lineTo(x, y);
  path.lineTo(x - wing * (dx + 0.7 * dy), y - wing * (dy - 0.7 * dx));
}

/** Whether a particle that leaves a cell on a link comes back from a wall. */
function reflects(frame, cells, x, y, [dx, dy]) {
  const { apart, width, height } = frame, row = y + Math.round(dy / apart);
  const column = (Math.round(x + dx + eastOf(frame, y) - eastOf(frame, row)) + width) % width;
  if (row < 0 || row >= height) return true;
  const isIn = column >= cells.x && column < cells.x + cells.width;
  return isIn && cells.before[(row - cells.y) * cells.width + column - cells.x] === SOLID;
}

/** Single cells: before the collision particles arrive, after it they leave, and then they glide along their links. */
function paintCells(c, frame, scale, cells, { isCollided, glide }) {
  const { gas, apart } = frame, half = scale / 2, states = isCollided ? cells.after : cells.before;
  const links = velocities(GASES[gas]).slice(0, GASES[gas].moves.length).map(([east, north]) => [east, -north]);
  const [solid, dots, rest, still, meeting, grid] = Array.from({ length: 6 }, () => new Path2D());
  states.forEach((state, at) => {
    const x = cells.x + (at % cells.width), y = cells.y + Math.floor(at / cells.width);
    const cx = (x + eastOf(frame, y)) * scale, cy = y * apart * scale;
    if (state === SOLID) return solid.rect(cx - half, cy - half * apart, scale, scale * apart);
    dot(dots, cx, cy, 0.05 * scale);
    for (const [dx, dy] of scale > 24 ? links : []) {
      grid.moveTo(cx, cy);
      grid.lineTo(cx + dx * half, cy + dy * half);
    }
    if (state >> links.length) dot(rest, cx, cy, 0.15 * scale);
    const path = cells.before[at] === cells.after[at] ? still : meeting;
    links.forEach((link, i) => {
      if (!(state >> i & 1)) return;
      if (!isCollided) arrow(path, cx, cy, link, -0.46, scale);
      else if (glide < 0.5 || !reflects(frame, cells, x, y, link)) arrow(path, cx, cy, link, 0.1 + 0.44 * glide, scale);
      else arrow(path, cx, cy, [-link[0], -link[1]], -0.46, scale);
    });
  });
  const fill = (path, fillStyle) => Object.assign(c, { fillStyle }).fill(path);
  const stroke = (path, strokeStyle) => Object.assign(c, { strokeStyle }).stroke(path);
  c.lineWidth = 1.5;
  stroke(grid, theme.faint);
  fill(solid, theme.wall);
  fill(dots, "#8b98a3");
  fill(rest, theme.arrow);
  Object.assign(c, { lineWidth: Math.max(1.3, 0.07 * scale), lineCap: "round", lineJoin: "round" });
  stroke(still, theme.arrow);
  stroke(meeting, theme.meets);
}
