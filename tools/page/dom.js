// The page: elements of the document, and what is said to its reader.

import {Wrong} from "../lib/words.js";

/** The element with an id.
 * @param {string} id
 * @returns {*} */
export function byId(id) { return document.getElementById(id); }

/** A value that the page was packed with.
 * @param {string} id */
export function itemOf(id) { return JSON.parse(byId(id).textContent); }

/** A new element with a class, and texts or elements in it.
 * @param {string} tag
 * @param {string} [kind]
 * @param {...(string | Node)} parts
 * @returns {*} */
export function element(tag, kind, ...parts) {
  const made = document.createElement(tag);
  if (kind) made.className = kind;
  made.append(...parts);
  return made;
}

/** A button.
 * @param {string} words
 * @param {() => void} act
 * @param {string} [kind] */
export function buttonOf(words, act, kind) {
  const button = element("button", kind, words);
  button.type = "button";
  button.addEventListener("click", act);
  return button;
}

/** Lets an element act.
 * @param {string} id
 * @param {string} kind of event
 * @param {(event: *) => void} act */
export function on(id, kind, act) { byId(id).addEventListener(kind, act); }

/** The reader stopped what ran. */
export class Stopped extends Error {}

/** Says what went wrong, or takes it away.
 * @param {*} problem */
export function alertOf(problem) {
  byId("alert").hidden = !problem;
  byId("alert").textContent = problem ? problem.message : "";
  if (problem && !(problem instanceof Wrong) && !(problem instanceof Stopped)) console.error(problem);
}

/** Does something that may go wrong, and says so if it does.
 * @param {() => Promise<*>} act */
export function tried(act) { act().catch(alertOf); }

/** Says something that is no mistake, for a while.
 * @param {string} words */
export function noteOf(words) {
  const box = byId("note");
  box.textContent = words;
  box.hidden = !words;
  window.clearTimeout(box.timer);
  box.timer = window.setTimeout(() => { box.hidden = true; }, 8000);
}

/** Scrolls a box, so that what is from `top` to `bottom` in it is in sight, with some room.
 * @param {*} box
 * @param {number} top
 * @param {number} bottom
 * @param {number} room */
export function scrollInto(box, top, bottom, room) {
  if (top - room < box.scrollTop) box.scrollTop = top - room;
  else if (bottom + room > box.scrollTop + box.clientHeight) box.scrollTop = Math.min(top, bottom + room - box.clientHeight);
}

/** Copies a text.
 * @param {string} text
 * @param {string} said when that is done */
export async function copy(text, said) {
  try {
    await navigator.clipboard.writeText(text);
    noteOf(said);
  } catch {
    window.prompt("To copy:", text);
  }
}

/** Saves a text as a file, each character as one byte if it has only such, else in UTF-8.
 * @param {string} name
 * @param {string} text
 * @param {string} [kind] */
export function saveFile(name, text, kind = "text/plain") {
  const link = element("a");
  link.href = URL.createObjectURL(new Blob([text], {type: kind}));
  link.download = name.replace(/^.*\//, "");
  link.click();
  URL.revokeObjectURL(link.href);
}
