// Controls: from one table come their elements, keys and names.
import { HELP, KEY_NAMES } from "./help.js";
import { $, element, setText } from "./state.js";

/**
 * @typedef {{ id: string, key: string, label: string, kind: "button" | "list" | "range" | "number" | "text" | "check", style?: string,
 *   act?: () => void, isLate?: boolean, options?: string[][], attributes?: Record<string, string | number>, text?: () => string,
 *   said?: (value: number) => string, isPressed?: () => boolean, isOff?: () => boolean, isHidden?: () => boolean, isWaiting?: () => boolean }} Control
 *   a slider that `isLate` acts when it is let go; `said` are the words for a value, `text` is a label that changes
 * @typedef {{ title: string, place: string, controls: Control[] }} Group
 */

const TYPING = 1000; // milliseconds in which letters go on to choose from a list
let isByPointer = false; // what was used last
let letterAt = 0; // when a list that has changed since took a letter
export const space = { isDown: false, isUsed: false }; // held, for a drag
let all = /** @type {Control[]} */ ([]);

/** @param {Control} control */
function made({ id, key, label, kind, said, style = "", options = [], attributes = {} }) {
  const shortcut = element("kbd", { "aria-hidden": "true" }, KEY_NAMES[key] ?? key), name = element("span", {}, label);
  const own = { id, title: HELP[id], "aria-label": label, "aria-keyshortcuts": key === " " ? "Space" : key };
  if (kind === "button") return element("button", { ...own, class: style, type: "button" }, name, shortcut);
  const list = options.map(([value, text]) => element("option", { value }, text));
  const type = kind === "check" ? "checkbox" : kind;
  const input = kind === "list" ? element("select", own, ...list) : element("input", { type, ...own, ...attributes });
  const value = said ? [element("output", { for: id, "aria-hidden": "true" })] : [];
  return element("label", { for: id, title: HELP[id] }, element("span", {}, name, shortcut), input, ...value);
}

export function makeControls(groups, changed) {
  for (const { title, place, controls } of groups) {
    const group = title ? element("fieldset", {}, element("legend", {}, title)) : $(place);
    group.append(...controls.map(made));
    if (title) $(place).append(group);
    for (const { id, kind, act, isLate } of controls) {
      const event = kind === "button" ? "click" : kind === "range" && !isLate ? "input" : "change";
      if (isLate) $(id).addEventListener("input", changed);
      $(id).addEventListener(event, () => {
        if (kind !== "button" && !$(id).reportValidity()) return;
        act?.();
        changed();
      });
    }
  }
  all = groups.flatMap(({ controls }) => controls);
  listen(new Map(all.map(({ key, id }) => [key, id])));
  return all;
}

/** Changes an attribute, if it has another value: what does not change is not laid out again. */
const set = (control, name, value) => control.getAttribute(name) === value || control.setAttribute(name, value);

export function showControls() {
  for (const { id, kind, said, isPressed, isOff, isHidden, isWaiting, text } of all) {
    const control = $(id), words = text?.() ?? said?.(Number(control.value)) ?? "";
    if (isPressed) set(control, "aria-pressed", String(isPressed()));
    if (isOff) control.disabled = isOff();
    if (isHidden) control.hidden = isHidden();
    if (isWaiting) control.classList.toggle("waits", isWaiting());
    if (text || said) {
      setText(kind === "button" ? control.firstChild : control.nextElementSibling, words);
      set(control, kind === "button" ? "aria-label" : "aria-valuetext", words);
    }
  }
}

/** Keys: a button is pressed, a list or slider moves on, or back with Shift. */
function press(control, isBack) {
  const { length, selectedIndex, tagName, type } = control;
  if (tagName === "BUTTON" || type === "checkbox") return control.click();
  if (/number|text/.test(type)) return control.select();
  if (tagName === "SELECT") control.selectedIndex = (selectedIndex + (isBack ? length - 1 : 1)) % length;
  else control[isBack ? "stepDown" : "stepUp"]();
  for (const kind of ["input", "change"]) control.dispatchEvent(new Event(kind));
}

function isOwn({ tagName, type }, { key, timeStamp }) {
  if (tagName === "BUTTON" || type === "checkbox") return key === " " || key === "Enter";
  if (tagName === "SELECT") return key.length > 1 || !letterAt || timeStamp - letterAt < TYPING;
  if (tagName === "CANVAS") return /^( |Enter|Arrow)/.test(key);
  return /number|text/.test(type) || (type === "range" && /^(Arrow|Page|Home|End)/.test(key));
}

/** @param {Map<string, string>} keys the controls' ids */
function listen(keys) {
  document.addEventListener("pointerdown", () => (isByPointer = true), true);
  document.addEventListener("keydown", (event) => {
    const { key, target, shiftKey } = event, focused = /** @type {any} */ (target);
    const hasControl = event.ctrlKey || event.metaKey;
    isByPointer = false;
    if (key === "Escape" && !$("close").hidden) return void $("close").click();
    if (key === "Escape" || (key === "Enter" && /number|text/.test(focused.type))) return void focused.blur();
    const isUndo = key.toLowerCase() === "z" && hasControl, shifted = isUndo ? "Shift+Backspace" : `Shift+${key}`;
    if (isOwn(focused, event)) return void (letterAt &&= event.timeStamp);
    if (event.altKey || (hasControl && !isUndo)) return;
    if (/^[^ ]$/.test(key) && !isUndo && !$("letters").checked) return;
    const id = (shiftKey && keys.get(shifted)) || (isUndo ? "undo" : keys.get(key) ?? keys.get(key.toLowerCase()) ?? (/^[>:]$/.test(key) ? "pace" : ""));
    if (!id) return;
    event.preventDefault();
    if (id === "play") space.isUsed &&= event.repeat;
    if (id === "play") space.isDown = true;
    else if (!$(id).disabled && !$(id).hidden) press($(id), shiftKey);
  });
  document.addEventListener("keyup", ({ key }) => {
    if (key !== " " || !space.isDown) return;
    space.isDown = false;
    if (!space.isUsed) press($("play"), false);
  });
  // a control that the mouse used must not take the keys
  const leave = (kinds) => ({ target }) => isByPointer && target.closest?.(kinds)?.blur();
  for (const kind of ["click", "auxclick"]) document.addEventListener(kind, leave("button, canvas"));
  document.addEventListener("change", leave("select, input"));
  document.addEventListener("change", ({ target, timeStamp }) => {
    letterAt = /** @type {any} */ (target).tagName === "SELECT" && !isByPointer ? timeStamp : 0;
  });
  document.addEventListener("focusin", () => (letterAt = 0));
}
