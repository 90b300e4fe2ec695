// The numbers: those that belong to a preset, and all of them.
import { MOST_MACH, count, fixed, frontOf, numbersOf, round } from "./numbers.js";
import { $, amount, each, element, head, preset, setText, shown } from "./state.js";

/** What the page says of its kernel, and of the length of Re. */
export const said = { engine: "", length: "" };

function speeds() {
  const { times, frames, isRunning } = shown, first = times[0], last = times[times.length - 1];
  const gone = last ? (last[0] - first[0]) / 1000 : 0;
  const cells = frames.reduce((sum, { width, height }) => sum + width * height, 0);
  if (!isRunning || !gone) return { fps: 0, updates: 0 };
  return { fps: (times.length - 1) / gone, updates: (Math.abs(last[1] - first[1]) * cells) / gone / 1e6 };
}

/** Of each picture once. */
const of = (text) => each((frame) => text(numbersOf(frame, amount("length"))));
const value = (number, digits = 3) => (number === undefined || number === null ? "–" : round(number, digits));
const any = (isSo) => shown.frames.some((frame) => isSo(numbersOf(frame, amount("length"))));
const isFast = ({ fastestMach }) => fastestMach > MOST_MACH;
const percent = (part) => (part === undefined ? "–" : `${Math.round(100 * part)} %`);
const drag = ({ force, u }) => force === null ? "–" : value(force / u, 2);

/** @type {Record<string, () => string[]>} what presets name: a text, and a name for it */
const MAIN = {
  reynolds: () => [of(({ reynolds }) => value(reynolds)), `Re${any((one) => one.isCorrelated) ? " at most" : ""}, L = ${amount("length")}`],
  mach: () => [of((one) => one.fastestMach.toFixed(2)), `Mach, ${any(isFast) ? "too fast" : "fastest"}`],
  u: () => [each(({ u }) => fixed(u, 3)), "mean u"],
  drag: () => [each(drag), "force / u"],
  noise: () => [each(({ noise }) => value(noise, 2)), "noise of v"],
  front: () => [each((frame) => value(frontOf(frame, amount("radius")), 2)), "speed of the front"],
  particles: () => [each(({ particles }) => count(particles)), "particles"],
  momentum: () => [each(({ stripe }) => percent(stripe[1])), "of its momentum is in the stripe"],
  inside: () => [each(({ stripe }) => percent(stripe[0])), "of its particles"],
  found: () => [each(({ found }) => (found === null ? "–" : count(found))), `of ${count(head().width * head().height)} cells differ`],
  unlike: () => [each(({ unlike }) => (unlike === null ? "–" : count(unlike))), "cells differ"],
};

export function paintNumbers() {
  if (!shown.frames.length) return;
  const { direction, generation } = head(), isBack = direction < 0, own = shown.isOpened ? ["particles", "u"] : preset().numbers;
  const rows = [[count(generation), isBack ? "generation, back" : "generation"], ...own.map((name) => MAIN[name]())];
  const warnings = new Set(shown.frames.flatMap((frame) => numbersOf(frame, amount("length")).warnings));
  [...$("numbers").children].forEach((box, k) => {
    const [text, name] = rows[k] ?? ["", ""];
    box.className = k === 0 && isBack ? "back" : "";
    box.hidden = k >= rows.length;
    box.title = /^(reynolds|mach|u)$/.test(own[k - 1]) ? [...warnings].join(" ") : ""; // which a tap shows as a note
    setText(box.children[0], text);
    setText(box.children[1], name);
  });
  if (!$("all").hidden) paintAll(warnings);
}

function paintAll(warnings) {
  const { fps, updates } = speeds(), { wind } = head();
  const kept = `The wind is kept at ${wind}: particles are turned in every generation. u is the mean before that.`;
  const rows = Object.entries({
    "particles, always": each(({ particles }) => count(particles)),
    "fluid cells": each(({ fluid }) => count(fluid)),
    "filling d": of(({ filling }) => filling.toFixed(3)),
    "mean u, cells per generation": each(({ u }) => fixed(u, 3)),
    "mean v": each(({ v }) => fixed(v, 3)),
    "force per fluid cell and generation": each(({ force }) => value(force)),
    "noise of v from block to block": each(({ noise }) => value(noise)),
    "speed of the fastest block": each(({ fastest }) => fixed(fastest, 3)),
    "Mach of the fastest block": of(({ fastestMach }) => fastestMach.toFixed(2)),
    "Mach of the mean": of(({ mach }) => mach.toFixed(2)),
    "factor g": of(({ g }) => value(g)),
    "viscosity ν, Boltzmann's": of(({ nu }) => value(nu)),
    [`Reynolds g u L / ν, L = ${amount("length")}`]: of(({ reynolds }) => value(reynolds)),
    "blocked part of the channel": each(({ blockage }) => `${Math.round(100 * blockage)} %`),
    "speed that meets the obstacle": each(({ incoming }) => value(incoming)),
    "million updates per second": fps ? round(updates) : "–",
    "frames per second": fps ? fps.toFixed(0) : "–",
  });
  const hash = shown.hashes.length ? `SHA-256 of what fhpgas run prints: ${shown.hashes.join(" | ")}` : "";
  const words = [...warnings, `L is ${said.length}.`, wind === null ? "The wind decays." : kept, said.engine, hash];
  $("all").lastElementChild.replaceChildren(...rows.flatMap(([name, text]) => [element("dt", {}, name), element("dd", {}, text)]),
    ...words.filter(Boolean).map((text) => element("dd", { class: "wide" }, text)));
}
