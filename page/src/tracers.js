// Tracers: marks that the mean flow carries, so that one sees that and where the gas flows.
import { theme } from "./draw.js";

const NUMBER = 420, ROOM = 700; // pixels that each has at least
const LIFE = 900; // generations after which a mark begins elsewhere, on average
const STREAK = 14; // pixels of the fastest streak
const STILL = 0.004; // cells per generation: a slower mean flow is noise

/** The mean velocity of a frame at a place, east and down. */
function velocityAt({ velocity: { columns, rows, width, height, u, v }, apart }, [x, y]) {
  const row = Math.max(0, Math.min(rows - 1, Math.floor(y / apart / height)));
  const at = row * columns + Math.min(columns - 1, Math.floor(x / width));
  return [u[at], -v[at]];
}

/** @returns {Place} anywhere in a frame */
const anywhere = ({ width, height, apart }) => [Math.random() * width, Math.random() * (height - 1) * apart];

export class Tracers {
  places = /** @type {Place[]} */ ([]);
  generation = 0;

  spread(frame) {
    const number = Math.min(NUMBER, Math.floor((frame.width * frame.height) / 60));
    this.places = Array.from({ length: number }, () => anywhere(frame));
    this.generation = frame.generation;
  }

  /** Carries the marks to the generation of a frame. */
  carry(frame) {
    const { width, height, apart, generation } = frame, long = Math.abs(generation - this.generation);
    this.generation = generation;
    this.places = this.places.map((place) => {
      const [u, v] = velocityAt(frame, place), x = (place[0] + u * long + width) % width, y = place[1] + v * long;
      const isIn = y > 0 && y < (height - 1) * apart && x >= 0;
      return isIn && Math.random() >= long / LIFE ? [x, y] : anywhere(frame);
    });
  }

  paint(c, frame, scale) {
    const long = STREAK / Math.max(frame.fastest, 0.05), { width, height, apart } = frame;
    if (frame.fastest < STILL) return;
    c.beginPath();
    for (const place of this.places.slice(0, (width * height * apart * scale * scale) / ROOM)) {
      const [u, v] = velocityAt(frame, place), [x, y] = [place[0] * scale, place[1] * scale];
      if (!(Math.hypot(u, v) > STILL)) continue;
      c.moveTo(Math.max(0, Math.min(width * scale, x - u * long)), y - v * long);
      c.lineTo(x, y);
    }
    Object.assign(c, { strokeStyle: theme.ink, lineWidth: 1.6, lineCap: "butt", globalAlpha: 0.75 });
    c.stroke();
    c.globalAlpha = 1;
  }
}
