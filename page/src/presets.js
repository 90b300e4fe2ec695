// What the page can begin with: what differs from the first. `length` says what the length of Re is; without it, it is
// the channel's height. `upright` and `flat` are for windows that are higher than wide, or low; `look` says what to look
// at, `numbers` which numbers belong to it (panel.js), `isOrdered` that its entropy is shown (curve.js), and `theory` what is drawn over it.
const FIRST = { gases: ["fhp-rest"], shapes: ["disc"], chirality: "left", size: "1024 x 512", fill: 0.18, wind: 0.14,
  keep: true, radius: 44, pace: "most", field: "vorticity", smooth: 4, span: 5, upright: { size: "512 x 768" },
  flat: { size: "1024 x 384" }, length: "the disc's diameter", captions: /** @type {string[]} */ ([]),
  numbers: ["reynolds", "mach"], flips: false, rests: false, developed: false, isOrdered: false, theory: "",
  look: "The gas parts before the disc. Blue turns clockwise, red anticlockwise: both are born at the disc's skin." };
const SMALL = { gases: ["fhp1"], size: "512 x 256", upright: { size: "256 x 384" }, flat: { size: "512 x 192" }, smooth: 3 };
const AT_REST = { ...SMALL, wind: 0, keep: false, radius: 22, field: "density", span: 0, pace: "15/s", length: "", rests: true };

/** @type {Record<string, Partial<Record<keyof typeof FIRST, any>>>} */
const OTHERS = {
  "flow past a plate": { shapes: ["plate"], wind: 0.28, developed: true, span: 4, length: "the plate's height",
    look: "Draw into it. Vortices leave the plate in turn, blue ones clockwise, red ones anticlockwise. " +
      "Turn all particles (r): time runs back." },
  "vortex street": { developed: true, theory: "street", size: "3200 x 1016", upright: { size: "640 x 960", radius: 64 }, flat: {},
    wind: 0.3, radius: 80, smooth: 5, look: "Vortices leave the disc in turn: in 3200 × 1016 cells a pair in about " +
      "4,700 generations (St = 0.25). Draw a wall into them (d)." },
  "flow past a disc": {},
  "flow past two discs": { shapes: ["discs"], radius: 30, length: "the diameter of a disc",
    look: "Through the gap the gas is fastest. Draw a wall into it (d)." },
  "porous medium": { ...SMALL, shapes: ["porous"], radius: 8, wind: 0.04, fill: 0.3, field: "speed",
    length: "a grain's diameter", numbers: ["drag", "u"],
    look: "Up to a wind of 0.1 (w) force over speed hardly changes: Darcy's law. Faster, it grows." },
  "empty channel": { shapes: ["none"], length: "", field: "speed", theory: "parabola", size: "512 x 256", upright: { size: "256 x 256" },
    flat: { size: "512 x 192" },
    look: "The walls hold the gas back: the speed becomes a parabola, in the middle 1.5 of its mean. A wind (w) of 0.3 makes it " +
      "flatter." },
  "noise at one cell": { smooth: 0, span: 0, field: "speed", numbers: ["noise", "u"],
    look: "One cell, one generation: nothing but noise. Raise both means (s) (a), and a fluid comes out of it." },
  "sound ring": { ...AT_REST, theory: "circle", isOrdered: true, shapes: ["sound"], numbers: ["front", "particles"],
    look: "A dense disc sends out a ring: sound. Its front runs at about 0.75, quiet sound at 0.71 cells per generation." },
  "HPP's knotted ring beside FHP's": { ...AT_REST, theory: "circle", gases: ["hpp", "fhp1"], shapes: ["sound", "sound"],
    size: "256 x 256", upright: {}, flat: {}, captions: ["HPP, four directions", "FHP, six directions"], numbers: ["front"],
    look: "The same burst in both. Four directions make a ring with four knots, six an even one: so FHP has hexagons." },
  "a stripe in HPP beside FHP's": { ...AT_REST, gases: ["hpp", "fhp1"], shapes: ["stripe", "stripe"], size: "256 x 256", upright: {},
    flat: {}, radius: 8, fill: 0.2, field: "momentum", smooth: 5, pace: "300/s", captions: ["HPP, four directions", "FHP, six directions"],
    numbers: ["momentum", "inside"], look: "In HPP particles leave the stripe, but the momentum of its rows stays in them for ever; in FHP it " +
      "spreads, as in a fluid." },
  "HPP past a disc: a stripe": { ...SMALL, gases: ["hpp"], radius: 22, field: "speed", rests: true, pace: "300/s",
    numbers: ["u", "mach"], look: "No fluid: behind the disc is a stripe along the wind, and it never closes." },
  "a message in the noise": { ...AT_REST, isOrdered: true, shapes: ["text"], fill: 0.12, smooth: 2, pace: "300/s",
    numbers: ["found"], look: "There is a message in this noise: turn all particles (r). Turn one " +
      "alone first (t), and it never comes." },
  "one particle turned, and its cone": { ...AT_REST, isOrdered: true, shapes: ["none"], field: "difference", smooth: 2, flips: true,
    numbers: ["unlike", "particles"],
    look: "One particle was turned. Yellow is where the gas then differs from what it would be: never outside the circle." },
  "a pair, and a triple": { ...AT_REST, gases: ["fhp1", "fhp1"], shapes: ["pair", "triple"], size: "4 x 3",
    upright: {}, flat: {}, smooth: 0, pace: "1 s", captions: ["a head-on pair", "three at equal angles"],
    numbers: ["particles"],
    look: "Orange particles collide: the pair turns left, the triple goes back. Half steps (h) show it." },
};

export const PRESETS = Object.fromEntries(
  Object.entries(OTHERS).map(([name, preset]) => [name, /** @type {typeof FIRST} */ ({ ...FIRST, ...preset })]));

/** What presets were called in older links. @type {Record<string, string>} */
export const RENAMED = { "HPP's square beside FHP's ring": "HPP's knotted ring beside FHP's",
  "HPP past a disc: a cross": "HPP past a disc: a stripe", "an L that comes back": "a message in the noise" };
