// What the page says: what to look at, and notes at the picture's lower edge.
import { said } from "./panel.js";
import { $, element, preset, setWords } from "./state.js";

const MOST_NOTES = 3; // at a time
export const notes = /** @type {string[]} */ ([]); // all of them

export function introduce(words = preset().look, length = preset().length) {
  setWords($("sentence"), words);
  said.length = length || "the channel's height";
}

/**
 * Shows a note below those that are there. The same words are there once.
 * @param {string} text @param {"" | "good" | "bad"} kind @param {number} [lasting] seconds
 */
export function note(text, kind, lasting) {
  const one = element("p", { class: kind });
  setWords(one, text);
  const others = [...$("note").children].filter(({ textContent }) => textContent !== one.textContent);
  $("note").replaceChildren(...others.slice(1 - MOST_NOTES), one);
  if (lasting) setTimeout(() => one.remove(), 1000 * lasting);
  notes.push(text);
  return one;
}

/** Hides what was said of cells that are going. */
export function hideNotes() {
  $("note").replaceChildren();
  if ($("again")) introduce();
}
