// The page: that nothing is lost. The text of each tab is kept in the browser; what is replaced comes back by Undo; own work is replaced only after
// a question; files are opened, dropped and saved.

import {decoded, textOfBytes} from "../lib/bytes.js";
import {buttonOf, byId, element, noteOf, on, saveFile} from "./dom.js";
import {fields} from "./field.js";
import {act, examples, startOf, tasks} from "./state.js";

const PLACE = "its.page";                // where the browser keeps the texts
const LATER = 400;                       // milliseconds without a change, before they are kept

/** The name of the text of each field, for a file. */
export const names = {text: "session.its", source: "program.asm", "verify-session": "session.its", "verify-transcript": "transcript.out"};
/** @typedef {keyof typeof names} Id */

/** What a field's text was before it was replaced.
 * @type {Map<string, {name: string, text: string}>} */
const before = new Map();
/** The last text that the page itself has put into a field.
 * @type {Map<string, string>} */
const given = new Map();
/** What other parts of the page keep, by its name.
 * @type {Map<string, () => object>} */
const others = new Map();
/** How a field shows a text that is put into it.
 * @type {Map<string, (name: string, text: string) => void>} */
const shows = new Map();
let waiting = 0, isFull = false;

/** Whether a field has a text of its reader, which no example, no text to begin a task with and no other text of the page is.
 * @param {Id} id */
export function isOwn(id) {
  const {text} = fields[id], isGiven = given.get(id) === text || examples.some(one => one.text === text) || tasks.some(task => startOf(task) === text);
  return Boolean(text.trim()) && !isGiven;
}

/** Puts a text of the page itself into a field, such as a transcript of an example.
 * @param {Id} id
 * @param {string} name
 * @param {string} text */
export function give(id, name, text) {
  replace(id, name, text);
  given.set(id, text);
}

/** Puts a text into a field. What was there comes back by Undo.
 * @param {Id} id
 * @param {string} name
 * @param {string} text */
export function replace(id, name, text) {
  if (isOwn(id) && fields[id].text !== text) before.set(id, {name: names[id], text: fields[id].text});
  names[id] = name;
  fields[id].text = text;
  showUndo(id);
  keepLater();
}

/** Whether Undo can do something.
 * @param {string} id */
function showUndo(id) {
  const button = byId(id + "-undo");
  if (button) button.disabled = !before.has(id);
}

/** Asks before own work is replaced.
 * @param {Id} id
 * @param {string} what replaces it
 * @param {() => void} yes
 * @param {() => void} [no] */
export function asked(id, what, yes, no = () => {}) {
  if (!isOwn(id)) {
    yes();
    return;
  }
  const box = byId("question"), done = (/** @type {() => void} */ then) => () => {
    box.hidden = true;
    then();
  };
  box.replaceChildren("Replace your own text by " + what + "? Undo brings it back. ",
                      buttonOf("Replace it", done(yes)), " ", buttonOf("Keep mine", done(no)));
  box.hidden = false;
  box.querySelector("button").focus();
}

/** Keeps the texts of all tabs, a little later. */
export function keepLater() {
  window.clearTimeout(waiting);
  waiting = window.setTimeout(keep, LATER);
}

/** Keeps the texts of all tabs in the browser. If it cannot, that is said once. */
function keep() {
  const own = Object.fromEntries([...Object.keys(names).map(id => [id, {name: names[/** @type {Id} */ (id)], text: fields[id].text}]),
                                  ...[...others].map(([name, of]) => [name, of()])]);
  try {
    localStorage.setItem(PLACE, JSON.stringify(own));
    isFull = false;
  } catch {
    if (!isFull) noteOf("This browser cannot keep your texts (they are too long, or it keeps nothing for this page): save them as files.");
    isFull = true;
  }
}

/** Keeps something in addition to the texts of the fields.
 * @param {string} name
 * @param {() => object} of what is kept */
export function keepMore(name, of) { others.set(name, of); }

/** What the browser keeps: the texts by their fields, and the rest by its names.
 * @returns {Record<string, *>} */
export function kept() {
  try {
    return JSON.parse(localStorage.getItem(PLACE) || "{}");
  } catch {
    return {};
  }
}

/** Puts back what was kept of the fields that no link fills. */
export function restore() {
  const own = kept();
  for (const id of /** @type {Id[]} */ (["source", "verify-session", "verify-transcript"])) {
    if (own[id] && own[id].text) show(id, own[id].name, own[id].text);
  }
}

/** Shows a text in a field, as its tab does it.
 * @param {Id} id
 * @param {string} name
 * @param {string} text */
function show(id, name, text) {
  const own = shows.get(id);
  if (own) own(name, text); else replace(id, name, text);
}

/** The field in which a file is opened, by its name and the tab that is shown.
 * @param {string} name
 * @returns {Id} */
function fieldOf(name) {
  if (/\.(asm|mid)$/i.test(name)) return "source";
  if (/\.out$/i.test(name)) return "verify-transcript";
  return byId("panel-verify").hidden ? "text" : "verify-session";
}

/** The text of a file: UTF-8, or one character for each byte if it is none.
 * @param {File} file */
async function textOf(file) {
  const bytes = textOfBytes(new Uint8Array(await file.arrayBuffer())), text = decoded(bytes);
  return text.includes("\ufffd") ? bytes : bytes.startsWith("\xef\xbb\xbf") ? "\ufeff" + text : text;
}

/** Opens files, each in its tab.
 * @param {Iterable<File>} files
 * @param {Id} [own] the field, if it does not depend on the name */
export async function open(files, own) {
  for (const file of files) {
    const id = own || fieldOf(file.name), text = await textOf(file);
    act.choose({text: "session", source: "assembly", "verify-session": "verify", "verify-transcript": "verify"}[id]);
    asked(id, file.name, () => show(id, file.name, text));
  }
}

/** The buttons of a field: Open, Save and Undo. `shown` shows a text that is put into it.
 * @param {Id} id
 * @param {(name: string, text: string) => void} [shown] */
export function wireField(id, shown) {
  if (shown) shows.set(id, shown);
  const chooser = element("input");
  Object.assign(chooser, {type: "file", hidden: true, ariaLabel: "Open a file", accept: ".its,.asm,.mid,.out,.txt,text/plain"});
  chooser.addEventListener("change", () => {
    open([...chooser.files], id);
    chooser.value = "";
  });
  const undo = buttonOf("Undo", () => {
    const old = before.get(id);
    if (old) show(id, old.name, old.text);
  });
  Object.assign(undo, {id: id + "-undo", disabled: true, title: "Brings back your text that was replaced"});
  byId(id + "-files").append(chooser, buttonOf("Open", () => chooser.click()),
                             buttonOf("Save", () => saveFile(names[id], fields[id].text)), undo);
  on(id, "input", keepLater);
}

/** Files may be dropped on the page. */
export function wireDrops() {
  document.addEventListener("dragover", event => { if (event.dataTransfer && event.dataTransfer.types.includes("Files")) event.preventDefault(); });
  document.addEventListener("drop", event => {
    if (!event.dataTransfer || !event.dataTransfer.files.length) return;
    event.preventDefault();
    open([...event.dataTransfer.files]);
  });
}
