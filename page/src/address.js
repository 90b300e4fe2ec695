// The address: after # it has the state of the controls, so that a link shows the same start.
import { FIELDS } from "./fields.js";
import { GASES } from "./gases.js";
import { isLengths } from "./lengths.js";
import { refusalOf, sealed, unsealed } from "./message.js";
import { RENAMED } from "./presets.js";
import { $, chosen, element, head, look, marks, preset, shown } from "./state.js";

export const OPENED = "opened"; // the address of a scene that was opened, which no address has
const LOW = 480; // pixels of a phone on its side
const HELLO = "HELLO"; // the message of a start that has none
const MOST_RUNS = 8000; // letters of what was drawn
const OF_PRESET = ["size", "chirality", "developed", "fill", "wind", "radius", "pace", "smooth", "span", "keep"];
const OF_WINDOW = ["size", "length"];
const CONTROLS = [...OF_PRESET, "gas", "seed", "length", "tracers"];
const opened = element("option", { value: OPENED }, "an opened scene");
let written = ""; // by the page

const partOf = ({ type }) => (type === "checkbox" ? "checked" : "value");
const valueOf = (id) => String($(id)[partOf($(id))]);

/** Sets a control, if it can have this value. Returns whether it can. */
export function setControl(id, value) {
  const control = $(id), part = partOf(control), before = control[part];
  if (id === "scene") value = RENAMED[value] ?? value;
  if (id === "pace" && value > 0) value = value < 3 ? "60/s" : value < 10 ? "300/s" : "most"; // once generations a frame
  control[part] = part === "checked" ? String(value) === "true" : value;
  const found = valueOf(id), isSame = found === String(value) || Number(found) === Number(value); // a slider takes the nearest
  const isSet = found !== "" && isSame && control.validity.valid;
  if (!isSet) control[part] = before;
  return isSet;
}

/** The number of what makes the cells of a start: with the force that keeps the wind, or with grains, they changed. */
const drive = () => (hasGrains() ? "3" : "2");
const hasGrains = () => preset().shapes[0] === "porous";
export const hasText = () => preset().shapes[0] === "text";

/** What the preset begins with in this window. */
function fitted() {
  const { upright, flat } = preset();
  return { ...preset(), ...(innerHeight > innerWidth ? upright : innerHeight < LOW ? flat : {}) };
}

/** Whether a message has the size of this window, and fits all windows: then its readers have it in the size of theirs. */
function isOfWindow() {
  const { size, upright, flat } = preset(), fits = (one) => !refusal(chosen.text, one.split(" x ").map(Number));
  return $("size").value === fitted().size && [size, upright.size, flat.size].every(fits);
}

/** The state of the controls. A text stands first, because some programs cut the end of a link off. */
export function stateText() {
  const state = new URLSearchParams(hasText() ? { text: sealed(chosen.text) } : {}), isFree = hasText() && isOfWindow();
  Object.entries({ scene: chosen.preset, field: chosen.field, drive: drive() }).forEach((one) => state.set(...one));
  for (const id of CONTROLS) if (!isFree || !OF_WINDOW.includes(id)) state.set(id, valueOf(id));
  const rounded = (values) => values.map((value) => Number(value.toFixed(2))).join(" ");
  if (!look.isWhole) state.set("at", rounded([look.place.x, look.place.y, look.place.scale]));
  if (marks.probe) state.set("probe", rounded([...marks.probe.at, marks.probe.radius]));
  return state.toString();
}

export const sizes = () => $("size").value.split(" x ").map(Number);
/** Why the lattice of the controls has no room for a text, or "". */
export const refusal = (text, [width, height] = sizes()) => refusalOf(text, width, (height - 1) * GASES[$("gas").value].apart);

/** Takes the message of a state, which nobody reads before it comes back. Returns whether it has one. */
function takeText(state) {
  const first = state.get("scene")?.startsWith("an L") ? "L" : HELLO; // as older links had it
  const text = state.has("text") ? unsealed(state.get("text")) : first, isText = text && !refusal(text);
  chosen.text = isText ? text : HELLO;
  $("text").value = "";
  return isText;
}

/** Sets the controls by a preset, and by a state. Returns what of the state is no control's, and what it refuses. */
export function applyState(text) {
  const state = new URLSearchParams(text), refused = /** @type {string[]} */ ([]);
  const take = (id) => state.has(id) && !setControl(id, state.get(id)) && refused.push(`${id}=${state.get(id)}`);
  take("scene");
  if ($("scene").value !== OPENED) chosen.preset = $("scene").value;
  const first = fitted();
  for (const id of OF_PRESET) setControl(id, first[id]);
  setControl("gas", first.gases[0]);
  if (state.has("seed")) setControl("developed", false); // an older link
  CONTROLS.forEach(take);
  const field = state.get("field") ?? first.field, lengths = state.get("runs") ?? "";
  chosen.field = Object.hasOwn(FIELDS, field) ? field : first.field;
  if (chosen.field !== field) refused.push(`field=${field}`);
  /** Three numbers, of which the last is a size. */
  const numbers = (key) => {
    const found = state.get(key)?.split(" ").map(Number);
    if (found?.length === 3 && found.every(Number.isFinite) && found[2] > 0) return found;
    if (found) refused.push(`${key}=${state.get(key)}`);
    return null;
  };
  const [width, height] = sizes(), isDrawn = isLengths(lengths, 64 * Math.ceil(width / 64) * height);
  if (!isDrawn) refused.push(`runs=${lengths.slice(0, 20)}`);
  if (hasText() && !takeText(state)) refused.push(`text=${state.get("text")}`);
  const isOlder = text !== "" && state.get("drive") !== drive() && ($("keep").checked || hasGrains());
  return { isOlder, hasLength: state.has("length"), at: numbers("at"), probe: numbers("probe"), lengths: isDrawn ? lengths : "", refused };
}

/** Lets the list of scenes say whether one that was opened is shown. */
export function showOpened(isOpened) {
  shown.isOpened = isOpened;
  if (isOpened) $("scene").append(opened);
  else opened.remove();
  $("scene").value = isOpened ? OPENED : chosen.preset;
}

export const isForeign = () => location.hash !== written;
export const isShort = () => head().lengths.length < MOST_RUNS;

/** The state of the controls, and what was drawn. */
export function startText() {
  const { lengths } = head();
  return stateText() + (lengths && isShort() ? `&runs=${lengths}` : "");
}

/** Writes it into the address, without a step of the history. */
export function writeAddress() {
  const hash = `#${shown.isOpened ? OPENED : startText()}`;
  if (hash === written) return;
  location.replace(hash);
  written = location.hash;
}
