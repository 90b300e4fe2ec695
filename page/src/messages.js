// The messages between the page and its worker, and the types that modules share. A file of types only: it is a script,
// not a module, so tsc knows them everywhere.

/**
 * @typedef {import("./gases.js").Gas} Gas
 * @typedef {import("./flow.js").Flow} Flow
 * @typedef {import("./kernel.js").Kernel} Kernel
 * @typedef {(gas: Gas, width: number, height: number) => Kernel} MakeKernel
 * @typedef {ReturnType<import("./frames.js").Watched["frame"]>} Frame
 * @typedef {"seeded" | "left" | "right"} Chirality
 * @typedef {[x: number, y: number]} Place eastwards and southwards from the first cell, in cells' widths
 * @typedef {{ at: Place, radius: number }} Disc
 * @typedef {{ from: Place, to: Place, radius: number, solid: boolean, end?: boolean }} Piece a piece of a stroke
 * @typedef {{ gas: string, chirality: Chirality, width: number, height: number, filling: number, wind: number,
 *   keep: boolean, shape: string, radius: number, seed: string, lengths?: string, isDeveloped?: boolean, text?: string }} Start
 *   `lengths` has the cells that are solid, or fluid, unlike in the shape; `text` is a message
 * @typedef {[left: number, top: number, width: number, height: number]} Box
 * @typedef {{ field: string, block: number, smooth: number, span: number, window: Box | null, hasEntropy?: boolean }} View
 *   what is looked at: blocks of so many columns, how often smoothed, a mean over so many generations
 */

/**
 * What the page says, by name. `engine` has a kernel's module in base64; `state` is the state of the controls, for the address; `seen`
 * says that a frame was painted; a run that is no other one only has another pace.
 * @typedef {{
 *   engine: { text: string, isProved: boolean }, open: { text: string, state: string }, gas: { gas: string, starts: Start[], state: string },
 *   start: { starts: Start[], state: string, asked?: number }, run: { on: boolean, pace: number, asked: number, isOther: boolean },
 *   chirality: { chirality: Chirality }, keep: { wind: number | null }, step: {}, back: {}, turn: {}, undo: {}, redo: {}, clear: {},
 *   save: {}, seen: {}, hash: { isWanted: boolean }, view: View, stroke: Piece, dense: Disc, flip: Disc, probe: Disc,
 * }} Commands
 */

/**
 * What the worker says, by name. `serial` counts the starts, `asked` is the number of the last one that the page asked for, `runs` of
 * the last run, `strokes` the pieces since the last frame, `undoes` what undo takes back, `redoes` what redo does again. A scene that
 * is refused changes nothing.
 * @typedef {{
 *   engine: { fault: string, isProved: boolean }, files: { files: { text: string, name: string }[] }, hashes: { hashes: string[] },
 *   frames: { frames: Frame[], isRunning: boolean, runs: number, serial: number, asked: number, state: string, strokes: number,
 *     undoes: string, redoes: string, hashes?: string[] }, fault: { fault: string, isRefused: boolean },
 * }} Answers
 * @typedef {<K extends keyof Commands>(name: K, value: Commands[K]) => void} Tell
 */
