// Help: a sentence for each control and number, as a title and in the list under ?.
import { GASES } from "./gases.js";
import { element } from "./state.js";

export const KEY_NAMES = { " ": "space", ArrowLeft: "←", ArrowRight: "→", Enter: "↵", Backspace: "⌫", "Shift+Backspace": "⇧⌫" };

/** @type {Record<string, string>} by the ids of the controls */
export const HELP = {
  scene: "What the lattice begins with.",
  send: "Copies a link with the message, or saves a file that has it, in which nobody can read it.",
  text: "What is written into the gas before it runs for 3,000 generations.", size: "How many cells the lattice has across and down.",
  fill: "The filling d: the chance that a cell has a particle in a direction.", radius: "The radius of the obstacles in cells.",
  developed: "Begins with a flow that has had its time to form, if one of this size, wind and obstacle is kept.",
  seed: "The number from which all random numbers of a start are drawn.",
  start: "Begins again with these values.", open: "Opens a scene, or a page that was sent. They can be dropped, and a link can be pasted.",
  gas: `The rules: ${Object.values(GASES).map(({ label, rule }) => `${label} has ${rule}`).join(", ")}.`,
  chirality: "To which side two particles that meet head-on turn. At random time cannot go back.",
  keep: "Turns a few particles in every generation, so that walls do not stop the wind.",
  wind: "The mean velocity eastwards, in cells per generation.",
  undo: "Undoes what was done last: a stroke, a clearing, a burst, a turn, another gas or a start.",
  redo: "Does again what was undone last.", clear: "Takes all obstacles away.",
  speed: "Shows how fast the gas is.", vorticity: "Shows how the gas turns: red anticlockwise, blue clockwise.",
  difference: "Shows where the gas differs from a copy in which no particle was turned.",
  momentum: "Shows the momentum eastwards of blocks that are one row high.", density: "Shows where more particles are than on average.",
  smooth: "Over how many cells a mean is taken.", span: "Over how many generations a mean is taken.",
  tracers: "Marks that the mean flow carries.", entropy: "Shows the entropy of a message, a burst or a cone over time, there and back.",
  move: "Moves the picture, as the middle button, arrows and space with a drag do. The wheel or two fingers zoom.",
  draw: "Draws obstacles. Particles in the way go to the nearest free places.", erase: "Erases obstacles.",
  dense: "Takes particles from everywhere and puts them where you click: a burst.",
  flip: "Turns the one particle that is nearest to your click.", probe: "Measures the flow in a disc over time, and looks for a period.",
  brush: "The radius of what draws, erases, probes and makes dense, in cells.",
  fit: "Shows the whole lattice.", near: "Shows single cells, slowly.", helpAll: "Shows or hides this list.",
  bare: "Shows the picture and nothing else, for a projector.",
  closer: "Zooms in.", farther: "Zooms out.", length: "The length L of the Reynolds and Strouhal numbers, in cells.",
  save: "Saves the cells as a scene, which the program fhpgas continues.",
  samples: "Saves what the probe has as text: generation, u and v.",
  film: "Films the picture until you press again.", picture: "Saves the picture.",
  link: "Copies a link to this start, or saves a file that opens with it.", numbersAll: "Shows or hides all numbers.",
  back: "Goes back by one generation.", play: "Runs the gas, or pauses it.", step: "Goes on by one generation.",
  half: "Shows single cells, and half of a generation: particles collide, then they hop.",
  pace: "How many generations there are in a second, at most.", turn: "Turns all particles, so time goes back to the start.",
  drawer: "Shows or hides the other controls.", letters: "Whether single letters, digits and signs are keys.",
};

/** The numbers, by the beginnings of their names, and the picture. */
const NUMBERS = {
  "the picture": "Without a mouse: Tab leads to it, arrows move it or a mark, and space uses the tool there.",
  "generation": "How often all particles have collided and hopped.",
  "Re, Reynolds": "g u L / ν: how much stronger a flow of this speed and size is than its friction.",
  "Mach": "A speed as a part of the speed of sound. Above 0.4 the gas is no incompressible fluid.",
  "noise": "The spread of v from block to block, where the flow is even.",
  "front": "How fast the edge of the ring has grown since the start.", "filling d": "The part of the places that have a particle.",
  "entropy": "Of how many particles go each way in blocks of 8 × 8 cells, per cell: of what one sees who sees no single cell.",
  "force": "The momentum that keeps the wind.", "factor g": "How strongly a lattice gas carries its own momentum: 1 in a real fluid.",
  "viscosity ν": "The friction, as Boltzmann's equation has it.", "million updates": "Cells times generations.",
};

/** Fills the list. @param {import("./controls.js").Control[]} controls */
export function makeHelp(list, controls) {
  const row = (name, text) => [element("dt", {}, ...name), element("dd", {}, text)];
  const key = (name) => element("kbd", {}, KEY_NAMES[name] ?? name);
  list.append(...controls.flatMap(({ id, label, key: name }) => row([label, " ", key(name)], HELP[id])),
    ...Object.entries(NUMBERS).flatMap(([name, text]) => row([name], text)),
    element("dd", { class: "wide" }, "fhpgas @VERSION@, under the MIT or the Apache 2.0 licence. Free to pass on."));
}
