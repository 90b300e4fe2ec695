// Drawing on a canvas.

const LETTERS = 15; // pixels for which the canvases are laid out

/** The colours of the page, of the light or the dark scheme, and the size of its letters as a multiple of the usual one. */
export const theme = { isDark: false, unit: 1, font: "",
  ink: "", paper: "", wall: "", arrow: "", meets: "", faint: "", soft: "", u: "", v: "" };
const COLOURS = Object.keys(theme).slice(3);

export function readTheme() {
  const style = getComputedStyle(document.documentElement);
  for (const name of COLOURS) theme[name] = style.getPropertyValue(`--${name}`).trim();
  theme.isDark = matchMedia("(prefers-color-scheme: dark)").matches;
  theme.unit = parseFloat(style.fontSize) / LETTERS;
  theme.font = style.fontFamily;
}

/** The context of a canvas in CSS pixels, with the pixels of the screen. A new size makes it empty. */
export function contextOf(canvas, alpha) {
  const ratio = window.devicePixelRatio || 1, { width, height } = canvas.getBoundingClientRect();
  const [w, h] = [Math.round(width * ratio), Math.round(height * ratio)];
  const isEmpty = canvas.width !== w || canvas.height !== h;
  if (isEmpty) Object.assign(canvas, { width: w, height: h });
  const context = /** @type {CanvasRenderingContext2D} */ (canvas.getContext("2d", { alpha }));
  context.setTransform(ratio, 0, 0, ratio, 0, 0);
  return { width, height, context, isEmpty };
}

/** Puts pixels, which are words of their bytes, on a canvas. */
export function imageOf(canvas, width, height, put) {
  if (canvas.width !== width || canvas.height !== height) Object.assign(canvas, { width, height });
  const image = new ImageData(width, height);
  put(new Int32Array(image.data.buffer));
  canvas.getContext("2d").putImageData(image, 0, 0);
  return canvas;
}

export function write(c, text, x, y, { font, align = "left", colour = theme.ink, most = Infinity }) {
  Object.assign(c, { font: `${font} ${theme.font}`, textAlign: align, fillStyle: colour });
  c.fillText(text, x, y, Math.min(most, 1e4));
}

/** @param {CanvasRenderingContext2D} c @param {number[][]} points @param {string} colour @param {number} wide */
export function line(c, points, colour, wide) {
  Object.assign(c, { strokeStyle: colour, lineWidth: wide });
  c.beginPath();
  points.forEach(([x, y]) => c.lineTo(x, y));
  c.stroke();
}

export function within(c, x, y, width, height, paint) {
  c.save();
  c.beginPath();
  c.rect(x, y, width, height);
  c.clip();
  paint();
  c.restore();
}

export function nice(length) {
  const power = 10 ** Math.floor(Math.log10(length));
  return (([5, 2, 1].find((k) => k * power <= length * 1.0001)) ?? 1) * power;
}
