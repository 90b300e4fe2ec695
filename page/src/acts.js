// What the controls do.
import { applyState, hasText, isShort, refusal, setControl, showOpened, sizes, startText, stateText, writeAddress } from "./address.js";
import { curve } from "./curve.js";
import { record, save } from "./files.js";
import { GASES } from "./gases.js";
import { closer, fit, looked, paced } from "./look.js";
import { spelled } from "./message.js";
import { count } from "./numbers.js";
import { paintNumbers } from "./panel.js";
import { textOf } from "./probe.js";
import { repaint, tellNumbers, update } from "./screen.js";
import { $, amount, asked, chosen, element, head, isFile, isStill, look, marks, motion, preset, shown, source, tell, view } from "./state.js";
import { go, keepOn, move } from "./time.js";
import { hideNotes, introduce, note } from "./words.js";

const bodyClass = document.body.classList;

function startsOf(lengths = "") {
  const { gases, shapes } = preset(), [width, height] = sizes();
  return shapes.map((shape, k) => ({ width, height, shape, lengths, text: chosen.text, gas: gases.length > 1 ? gases[k] : $("gas").value,
    chirality: $("chirality").value, keep: $("keep").checked,
    isDeveloped: $("developed").checked, seed: String(Math.round(amount("seed"))),
    filling: amount("fill"), wind: amount("wind"), radius: amount("radius") }));
}

export function start(hasLength = false, lengths = "", isTurned = false) {
  const why = hasText() && shown.frames.length ? refusal(chosen.text) : "";
  if (why) return void note(why, "bad", 9);
  const { rests, length, flips } = preset(), starts = startsOf(lengths), [{ width, height, gas }] = starts;
  const { apart } = GASES[gas];
  showOpened(false);
  introduce();
  if (!hasLength) setControl("length", Math.round(length ? 2 * amount("radius") : height * apart));
  hideNotes();
  marks.probe = null;
  Object.assign(look, { isWhole: true, pace: "" });
  looked();
  tell("start", { starts, state: stateText(), asked: ++asked.starts });
  if (flips || isTurned) tell("flip", { at: [width / 2, (height * apart) / 2], radius: 1 });
  if (isTurned) tell("turn", {});
  go(isTurned || (!isStill && !rests));
}

/** A message as it was sent, perhaps with one particle turned, and on the way back. */
export function again(isTurned) {
  curve.isAgain = true;
  start(false, "", isTurned);
}

function write() {
  const text = spelled($("text").value), why = refusal(text);
  if (why) return void note(why, "bad", 9);
  chosen.text = text || chosen.text;
  start();
}

function near() {
  closer(Math.max(1, 36 / look.place.scale));
  paced(0);
}

function step() {
  if (shown.isRunning) go(false);
  if (motion.isOn || motion.phase > 1) return;
  if (head().cells) return move(900);
  motion.phase = 2;
  tell("step", {});
}

function half() {
  if (shown.isRunning) go(false);
  if (!head().cells) return near();
  if (motion.phase < 2 && !motion.isOn && motion.phase) return move(1400);
  motion.phase ||= 1;
  repaint();
}

/** Goes back, if all flows can, or offers a way on. */
function back(command) {
  hideNotes();
  if (shown.frames.some(({ canReverse }) => !canReverse)) {
    const why = "Pairs turn at random here, and their random bits only run forwards.";
    const offer = element("button", { id: "offer" }, "Go on with left");
    offer.onclick = () => {
      setControl("chirality", "left");
      acts.chirality();
    };
    return note(`${why} If they turn left from these cells on, time can come back to here.`, "bad", 20).append(offer);
  }
  const { isCut, origin, direction } = head(), oldest = `The way back goes to generation ${count(origin)}`;
  if (isCut && direction > 0) note(`${oldest}: older turnings took more than 64 MB.`, "", 9);
  tell(command, {});
  go(command === "turn");
}

/** Saves the page with this start in it: whoever opens this file sees it as one does who follows a link. */
function pack() {
  const page = source.replace(/(id="sent">)[^<]*/, (_, tag) => tag + startText());
  save(new Blob([page], { type: "text/html" }), hasText() ? "a-message.html" : "fhpgas.html");
}

function link() {
  if (shown.isOpened) return note("No link has the cells of a scene that was opened: save the scene, and pass that on.", "bad", 9);
  const text = hasText() && spelled($("text").value);
  if (text && text !== chosen.text) return write();
  writeAddress();
  const less = isShort() ? "" : ", without what was drawn, which is too much: save the scene";
  if (isFile) {
    const offer = element("button", { id: "pack" }, "Save it as a file to send");
    offer.onclick = pack;
    return note(`This page is a file, and no link leads to it from elsewhere${less}.`, "", 20).append(offer);
  }
  const told = () => note(`The link to this start is copied${less}.`, "good", 4), url = location.href;
  const shownOnly = () => note(`This browser does not let the page copy: the link is in the address bar${less}.`, "", 9);
  if (navigator.clipboard) navigator.clipboard.writeText(url).then(told, shownOnly);
  else shownOnly();
  navigator.share?.({ title: document.title, url }).catch(() => 0); // what the browser or the reader does not want
}

/** Shows the picture and nothing else, on the full screen if there is one. */
function bare() {
  const isBare = bodyClass.toggle("bare");
  if (isBare) document.documentElement.requestFullscreen?.().catch(() => 0);
  else if (document.fullscreenElement) document.exitFullscreen();
}

function toggle(id, other) {
  $(id).hidden = !$(id).hidden;
  $(other).hidden = true;
  $("close").hidden = $(id).hidden;
  fold();
  return !$(id).hidden;
}

/** Folds the panel where it lies over the picture. */
const fold = () => matchMedia("(max-width: 899px)").matches && bodyClass.remove("opened");

const command = (name, valueOf = () => ({})) => () => {
  hideNotes();
  tell(name, valueOf());
};

export const acts = {
  preset: () => {
    applyState(`scene=${$("scene").value}`);
    start();
  },
  start: () => start(),
  write,
  gas: command("gas", () => ({ gas: $("gas").value, starts: startsOf(), state: stateText() })),
  chirality: command("chirality", () => ({ chirality: $("chirality").value })),
  keep: command("keep", () => ({ wind: $("keep").checked ? amount("wind") : null })),
  wind: () => $("keep").checked && acts.keep(),
  undo: command("undo"),
  redo: command("redo"),
  clear: command("clear"),
  field: (field) => {
    chosen.field = field;
    looked();
  },
  tool: (tool) => {
    Object.assign(chosen, { tool, isTool: true });
    view().style.cursor = tool === "move" ? "grab" : "crosshair";
    fold();
  },
  look: looked,
  fit: () => {
    const { scale } = look.place;
    fit();
    paced(scale);
  },
  near,
  closer: () => closer(1.5),
  farther: () => closer(1 / 1.5),
  bare,
  drawer: () => bodyClass.toggle("opened"),
  save: command("save"),
  samples: () => marks.probe && save(new Blob([textOf(marks.samples, marks.probe)]), `${head().gas}-probe.txt`),
  film: () => record(update),
  picture: () => view().toBlob((blob) => blob && save(blob, `${head().gas}-${head().generation}.png`)),
  link,
  numbers: () => {
    tell("hash", { isWanted: toggle("all", "help") });
    paintNumbers();
  },
  help: () => toggle("help", "all") && $("help").focus(),
  length: () => tellNumbers(0),
  back: () => back("back"),
  play: () => {
    hideNotes();
    go(!shown.isRunning);
  },
  step,
  half,
  pace: keepOn,
  turn: () => back("turn"),
};
