// The page: what it asks of the worker and the browser, and what it does with their answers. Lattices are the worker's.
import { acts, start } from "./acts.js";
import { OPENED, applyState, isForeign } from "./address.js";
import { makeControls } from "./controls.js";
import { readTheme } from "./draw.js";
import { save, takeFiles } from "./files.js";
import { MOST_CELLS } from "./gases.js";
import { makeHelp } from "./help.js";
import { fit, looked } from "./look.js";
import { count } from "./numbers.js";
import { paintNumbers, said } from "./panel.js";
import { listenToPointers } from "./pointer.js";
import { repaint, screen, update } from "./screen.js";
import { $, asked, chosen, element, head, look, marks, motion, sent, shown, tell, view, worker } from "./state.js";
import { stripHeight } from "./strip.js";
import { tableOf } from "./table.js";
import { take } from "./taken.js";
import { setRunning } from "./time.js";
import { note, notes } from "./words.js";

const KERNELS = ["The kernel in this page computes the cells: fhpgas by plain Rust, not proved, free to pass on",
  "The proved engine computes the cells (engine.js)"];

/** @type {{ [K in keyof Answers]: (value: Answers[K]) => void }} */
const answers = {
  engine: ({ fault, isProved }) => {
    if (fault) note(`${isProved ? "engine.js" : "The kernel"} does not serve: ${fault}`, "bad", 9);
    else said.engine = `${KERNELS[Number(isProved)]}. At most ${count(MOST_CELLS)} cells.`;
  },
  frames: (frames) => {
    shown.queue.push(frames);
    repaint();
  },
  files: ({ files }) => {
    files.forEach(({ text, name }) => save(new Blob([text]), `${name}.toml`));
    if (!isSecureContext) note("Over http a browser may ask before it keeps a scene.", "", 9);
  },
  hashes: ({ hashes }) => {
    Object.assign(shown.queue[shown.queue.length - 1] ?? shown, { hashes }); // they are of the last frame
    paintNumbers();
  },
  fault: ({ fault, isRefused }) => {
    note(fault, "bad");
    if (isRefused) return;
    shown.queue.forEach((next) => (next.isRunning = false));
    setRunning(false);
  },
};

/** Looks for engine.js beside the page. A script that is missing is an error in the console, an object is none. */
function seekEngine() {
  const object = element("object", { data: "engine.js" });
  object.onerror = () => object.remove();
  object.onload = () => {
    const script = element("script", { src: "engine.js" });
    script.onload = () => tell("engine", { text: /** @type {any} */ (globalThis).FHPGAS_ENGINE, isProved: true });
    object.replaceWith(script);
  };
  document.body.append(object);
}

function begin() {
  const { isOlder, hasLength, lengths, ...pending } = applyState(location.hash.slice(1) || sent);
  Object.assign(asked, pending);
  start(hasLength, lengths);
  if (isOlder) note("This link is older than the force that keeps the wind now, or than these grains: its cells were other ones.", "", 9);
  if (location.hash === `#${OPENED}`) note("The scene of this address was opened from a file. No address has its cells: open it again.", "bad");
}

worker.onmessage = ({ data }) => answers[/** @type {keyof Answers} */ (data.name)](data.value);
worker.onerror = ({ message }) => note(`A mistake in this page: ${message}`, "bad");
screen.take = take;
makeHelp($("help").lastElementChild, makeControls(tableOf(acts), update));
takeFiles((text) => tell("open", { text, state: OPENED }), (start) => location.hash.slice(1) === start ? begin() : (location.hash = start));
listenToPointers();
new ResizeObserver(() => {
  readTheme();
  $("note").style.bottom = `${stripHeight(view().clientWidth) + 6}px`;
  if (shown.frames.length) look.isWhole ? fit() : looked();
}).observe(view());
$("numbers").onclick = ({ target }) => target.closest("[title]")?.title && note(target.closest("[title]").title, "", 9);
$("close").onclick = () => $($("all").hidden ? "helpAll" : "numbersAll").click();
matchMedia("(prefers-color-scheme: dark)").onchange = () => (readTheme(), repaint());
readTheme();
document.onfullscreenchange = () => {
  if (!document.fullscreenElement) document.body.classList.remove("bare");
  update();
};
window.onhashchange = () => isForeign() && begin();
document.onvisibilitychange = repaint; // a hidden tab paints nothing, so the worker rests
tell("engine", { text: $("kernel").textContent, isProved: false });
begin();
seekEngine();
Object.assign(globalThis, { fhpgas: { $, chosen, head, look, marks, motion, notes, said, screen, shown, worker } }); // for tests
