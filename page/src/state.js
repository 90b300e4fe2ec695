// What the page shows and does now, and the wire to its worker, which has the lattices.
import { PRESETS } from "./presets.js";

export const NEAR = 10; // pixels across a cell from which single cells are shown
export const GAP = 16; // pixels between two pictures
/** The page as it came, for a file to send, and the start that it was sent with, which it has for an address. */
export const source = `<!doctype html>\n${document.documentElement.outerHTML}\n`;
export const sent = document.getElementById("sent")?.textContent ?? "";
export const isFile = !location.protocol.startsWith("http"); // to which no link leads from elsewhere
export const isStill = matchMedia("(prefers-reduced-motion: reduce)").matches; // nothing moves before one asks for it

/** What the worker sent, and what is on the screen of it. */
export const shown = {
  queue: /** @type {Answers["frames"][]} */ ([]), // frames that were not painted
  frames: /** @type {Frame[]} */ ([]),
  serial: 0,
  isRunning: false,
  isOpened: false, // a scene
  undoes: "", // what undo takes back
  redoes: "", // what redo does again
  hashes: /** @type {string[]} */ ([]),
  times: /** @type {[time: number, generation: number][]} */ ([]), // when frames were painted
  painted: 0,
};

/** Where one looks: the place at the upper left, and pixels per cell. What was sent of it. The pace before single cells. */
export const look = { place: { x: 0, y: 0, scale: 0 }, isWhole: true, sent: "", pace: "" };
/** `isTool` says whether the tool was chosen, so that arrows move a mark for it. */
export const chosen = { preset: "", field: "vorticity", tool: "draw", isTool: false, text: "" };
export const preset = () => PRESETS[chosen.preset];

/** What was asked of the worker: starts and runs, of which it may not have made the last, and what an address wants of it. */
export const asked = { starts: 0, runs: 0, at: /** @type {number[] | null} */ (null),
  probe: /** @type {number[] | null} */ (null), refused: /** @type {string[]} */ ([]) };

/** A generation in pictures: phase 0 before the collision, 1 after it, 2 at its end. */
export const motion = { phase: 0, isOn: false, begun: 0, span: 0 };

export const marks = {
  pieces: /** @type {Piece[]} */ ([]), // of a stroke that the worker does not have yet
  touched: /** @type {Disc | null} */ (null), // where a tool was used
  cursor: /** @type {Disc | null} */ (null), // of the keys
  probe: /** @type {Disc | null} */ (null),
  samples: /** @type {import("./probe.js").Sample[]} */ ([]),
};

/** @param {string} id @returns {any} */
export const $ = (id) => document.getElementById(id);
export const worker = new Worker(URL.createObjectURL(new Blob([$("worker").textContent], { type: "text/javascript" })));
/** @type {Tell} */
export const tell = (name, value) => worker.postMessage({ name, value });
export const view = () => /** @type {HTMLCanvasElement} */ ($("view"));
export const amount = (id) => Number($(id).value);
export const head = () => shown.frames[0];

/** @param {string} tag @param {Record<string, string | number>} attributes @param {(Node | string)[]} children */
export function element(tag, attributes, ...children) {
  const made = document.createElement(tag);
  for (const [name, value] of Object.entries(attributes)) made.setAttribute(name, String(value));
  made.append(...children);
  return made;
}

export function setText(node, text) {
  if (node.textContent !== text) node.textContent = text;
}

/** Sets a text in which a letter in brackets is a key. */
export const setWords = (node, text) =>
  node.replaceChildren(...text.split(/ \((\S)\)/).map((part, k) => (k % 2 ? element("kbd", {}, part) : part)));

/** Each value once, of all pictures. */
export const each = (text) => [...new Set(shown.frames.map(text))].join(" | ");
export const paneWidth = (width) => (width - GAP * (shown.frames.length - 1)) / shown.frames.length;
