// Where one looks: at a part of the lattice, near or far.
import { setControl } from "./address.js";
import { hasCurve } from "./curve.js";
import { repaint, screen, update } from "./screen.js";
import { $, NEAR, amount, chosen, head, look, paneWidth, shown, tell, view } from "./state.js";
import { stripHeight } from "./strip.js";
import { BLOCKS, SPANS } from "./table.js";
import { isSlow, keepOn } from "./time.js";
import { note } from "./words.js";

function lookFrom(place) {
  Object.assign(look, { place, isWhole: false });
  looked();
}

/** Looks where an address asks to, if the lattice is seen from there. @param {number[]} at */
export function lookAsAsked(at) {
  const [x, y, scale] = at, { width, height, apart } = head(), { clientWidth, clientHeight } = view();
  const isIn = x < width && y < height * apart && x > -clientWidth / scale && y > -clientHeight / scale;
  if (isIn && scale >= 0.1 && scale <= 200) lookFrom({ x, y, scale });
  else note("The address looks past the lattice, so all of it is shown.", "bad", 9);
}

/** Shows the whole lattice, from the top of the picture. */
export function fit() {
  const { clientWidth, clientHeight } = view(), { width, height, apart } = head();
  const high = clientHeight - stripHeight(clientWidth), wide = paneWidth(clientWidth);
  const scale = Math.min((wide - 4) / (width + 0.5), (high - 8) / (height * apart), 150);
  const y = Math.max(((height - 1) * apart - high / scale) / 2, -4 / scale - apart / 2);
  lookFrom({ scale, x: (width - 0.5 - wide / scale) / 2, y });
  look.isWhole = true;
}

/** Zooms about a point of the canvas, and moves it to another. */
export function zoom(factor, from, to = from) {
  const { x, y, scale: old } = look.place, scale = Math.max(0.1, Math.min(200, old * factor));
  lookFrom({ scale, x: x + from.x / old - to.x / scale, y: y + from.y / old - to.y / scale });
  paced(old);
}

/** Single cells that come in sight slow the pace, so that nothing flickers, and give it back when they go. */
export function paced(before) {
  const isNear = look.place.scale >= NEAR;
  if (isNear === before >= NEAR || (isNear && isSlow())) return;
  const pace = isNear ? "1 s" : $("pace").value === "1 s" && look.pace;
  look.pace = isNear ? $("pace").value : "";
  if (pace) setControl("pace", pace);
  keepOn();
}

export function closer(factor) {
  const { clientWidth, clientHeight } = view(), { height, apart } = head(), { y, scale } = look.place;
  const high = Math.min(clientHeight - stripHeight(clientWidth), (height * apart - y) * scale);
  zoom(factor, { x: paneWidth(clientWidth) / 2, y: high / 2 });
}

/** Asks for what is to be seen: the field, and the cells in the picture if they are large enough. */
export function looked() {
  const [block, smooth] = BLOCKS[amount("smooth")], { place: { x, y, scale } } = look;
  /** @type {View} */
  const wanted = { field: chosen.field, block, smooth, span: SPANS[amount("span")], window: null, hasEntropy: hasCurve() };
  if (shown.frames.length && scale >= NEAR) {
    const { clientWidth, clientHeight } = view(), { apart } = head();
    const [left, top] = [x, y / apart].map((part) => Math.floor(part) - 1);
    const [wide, tall] = [paneWidth(clientWidth), clientHeight / apart].map((part) => Math.ceil(part / scale) + 3);
    wanted.window = [left, top, wide, tall];
  }
  screen.toldAt = 0;
  const text = JSON.stringify(wanted);
  if (text !== look.sent) tell("view", wanted);
  look.sent = text;
  update();
  repaint();
}
