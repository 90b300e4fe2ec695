// The table of the controls: what each is called, its key, and what it does.
import { hasText } from "./address.js";
import { FIELDS } from "./fields.js";
import { isFilming } from "./files.js";
import { GASES } from "./gases.js";
import { count } from "./numbers.js";
import { PRESETS } from "./presets.js";
import { $, chosen, head, isFile, isStill, marks, motion, preset, shown } from "./state.js";

const SIZES = ["4 x 3", "64 x 32", "256 x 128", "256 x 256", "256 x 384", "512 x 192", "512 x 256", "512 x 512",
  "512 x 768", "640 x 960", "1024 x 384", "1024 x 512", "2048 x 512", "2048 x 1024", "3200 x 1016", "4096 x 1024"];
const PACES = ["3 s", "1 s", "0.3 s", "5/s", "15/s", "60/s", "300/s", "most"]; // of a generation, or generations in one
const SIDES = [["left", "left"], ["right", "right"], ["seeded", "at random"]];
export const BLOCKS = [[1, 0], [2, 0], [2, 2], [4, 2], [8, 2], [16, 2], [32, 2]]; // columns, and how often smoothed
export const SPANS = [1, 3, 10, 30, 100, 300, 1000, 3000, 10000, 30000];
const hasCone = () => chosen.field === "difference" || preset().flips;
const isBare = () => document.body.classList.contains("bare");
const isWaiting = () => !shown.isRunning && (isStill || preset().rests) && head()?.generation === 0 && !motion.isOn;
const isBack = () => head()?.direction < 0; // controls that would change the rules wait
const cells = (value) => `${count(value)} cell${value > 1 ? "s" : ""}`;
const wide = (value) => cells(BLOCKS[value][0] * (BLOCKS[value][1] ? 2 : 1));
const paceText = (on) => (on === "most" ? "full speed" : on.endsWith(" s") ? `one in ${on}` : on.replace("/s", " a second"));
const named = (values, text) => values.map((value) => [value, text(value)]);

// the kinds of controls, with what else a control has
const button = (key, id, label, act, more = {}) => ({ key, id, label, kind: "button", act, ...more });
const half = (key, id, label, act, more = {}) => button(key, id, label, act, { style: "wide", ...more });
const list = (key, id, label, options, act, more = {}) => ({ key, id, label, kind: "list", options, act, ...more });
const slider = (key, id, label, [min, max, step, value = min], act, said, more = {}) =>
  ({ key, id, label, kind: "range", attributes: { min, max, step, value }, act, said, ...more });
const check = (key, id, label, act, more = {}) => ({ key, id, label, kind: "check", act, ...more });
const number = (key, id, label, attributes, more) => ({ key, id, label, kind: "number", attributes, ...more });

/** @param {Record<string, (value?: any) => void>} acts @returns {import("./controls.js").Group[]} */
export const tableOf = (acts) => /** @type {any} */ ([
  { title: "", place: "first", controls: [
    list("l", "scene", "scene", named(Object.keys(PRESETS), String), acts.preset),
    { key: "F8", id: "text", label: "text", kind: "text", act: acts.write, isHidden: () => !hasText(),
      attributes: { placeholder: "your own text", maxlength: 300, autocomplete: "off", spellcheck: "false" } },
    button("F9", "send", "Copy link", acts.link, { isHidden: () => !hasText(), text: () => (isFile ? "Send it" : "Copy link") })] },
  { title: "A new start", place: "panel", controls: [
    list("k", "size", "cells", named(SIZES, (size) => size.replace("x", "×")), acts.start),
    slider("f", "fill", "filling d", [0.05, 0.45, 0.01], acts.start, String, { isLate: true }),
    slider("u", "radius", "obstacle", [4, 120, 2], acts.start, (value) => `R = ${value}`, { isLate: true }),
    check("7", "developed", "developed", acts.start),
    number("5", "seed", "seed", { min: 0, max: 9e15, step: 1, value: 1 }, { act: acts.start }),
    half("Enter", "start", "Start", acts.start, { style: "wide main" }),
    half("o", "open", "Open", () => $("file").click())] },
  { title: "Change it, cells stay", place: "panel", controls: [
    list("g", "gas", "gas", named(Object.keys(GASES), (name) => GASES[name].label), acts.gas, { isOff: () => isBack() || shown.frames.length > 1 }),
    list("c", "chirality", "pairs turn", SIDES, acts.chirality, { isOff: isBack }),
    check("j", "keep", "keep wind", acts.keep, { isOff: isBack }),
    slider("w", "wind", "wind u", [0, 0.4, 0.02], acts.wind, String, { isOff: isBack }),
    half("Backspace", "undo", "undo", acts.undo, { isOff: () => !shown.undoes, text: () => `undo ${shown.undoes}` }),
    half("Shift+Backspace", "redo", "redo", acts.redo, { isOff: () => !shown.redoes, text: () => `redo ${shown.redoes}` }),
    button("4", "clear", "clear", acts.clear, { style: "full" })] },
  { title: "See", place: "panel", controls: [
    ...Object.entries(FIELDS).map(([id, { key }]) =>
      half(key, id, id, () => acts.field(id),
        { isPressed: () => chosen.field === id, isHidden: () => id === "difference" && !hasCone() })),
    slider("s", "smooth", "mean of", [0, BLOCKS.length - 1, 1], acts.look, wide),
    slider("a", "span", "and of", [0, SPANS.length - 1, 1], acts.look, (value) => `${count(SPANS[value])} gen.`),
    check("y", "tracers", "tracers", acts.look, { attributes: { checked: "" } }),
    check(";", "entropy", "entropy", acts.look, { attributes: { checked: "" } })] },
  { title: "Do, on the picture", place: "panel", controls: [
    ...["m move", "d draw", "e erase", "n dense", "t flip turn 1", "p probe"].map((tool) => {
      const [key, id, ...words] = tool.split(" "), isPressed = () => chosen.tool === id;
      return button(key, id, words.join(" ") || id, () => acts.tool(id), { isPressed });
    }),
    slider("b", "brush", "brush", [1, 60, 1, 10], undefined, (value) => `R = ${value}`),
    button("0", "fit", "whole", acts.fit),
    button("z", "near", "cells", acts.near),
    button("?", "helpAll", "help", acts.help, { isPressed: () => !$("help").hidden }),
    half("+", "closer", "closer", acts.closer),
    half("-", "farther", "farther", acts.farther)] },
  { title: "Measure and take along", place: "panel", controls: [
    number("i", "length", "length L", { min: 1, step: 1 }, { act: acts.length, said: () => "cells" }),
    half("x", "save", "scene", acts.save),
    half("v", "film", "film", acts.film, { isPressed: isFilming, text: () => (isFilming() ? "stop" : "film") }),
    half("8", "picture", "picture", acts.picture),
    half("9", "link", "link", acts.link),
    button("_", "samples", "Save samples", acts.samples, { style: "full", isOff: () => !marks.samples.length }),
    check("F4", "letters", "letters", undefined, { attributes: { checked: "" } }),
    button("=", "numbersAll", "all numbers", acts.numbers, { style: "full", isPressed: () => !$("all").hidden })] },
  { title: "", place: "transport", controls: [
    button("ArrowLeft", "back", "1 back", acts.back),
    button(" ", "play", "Run", acts.play, { style: "main", text: () => (shown.isRunning ? "Pause" : "Run"), isWaiting }),
    button("ArrowRight", "step", "1 on", acts.step),
    button("h", "half", "half a step", acts.half),
    list(".", "pace", "pace", named(PACES, paceText), acts.pace),
    button("r", "turn", "Turn all particles", acts.turn,
      { style: "turn", text: () => (isBack() ? "Turn all again" : "Turn all particles") }),
    button("F2", "drawer", "Controls", acts.drawer, { isPressed: () => document.body.classList.contains("opened") }),
    button("q", "bare", "full screen", acts.bare, { text: () => (isBare() ? "Show the controls" : "full screen") })] },
]);
