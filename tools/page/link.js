// The page: its address, which carries the session, the moment, and the jobs that are looked at.

import {byId, copy, alertOf, itemOf} from "./dom.js";
import {fields} from "./field.js";
import {keepLater, kept, names} from "./keeping.js";
import {setSession} from "./editor.js";
import {fromLink, toLink} from "./packing.js";
import {IDEA, act, exampleOf, examples, page} from "./state.js";
import {openTask, taskName} from "./tasks.js";
import {Wrong, countOf} from "../lib/words.js";

const LONGEST_LINK = 24000;              // characters of a session that a link carries
const packed = itemOf("packed");         // the session that the page was packed with

/** What the address says: the session, the moment, who is looked at, and the words that are watched. While a task is worked on, the task alone. */
export async function hashOf() {
  if (taskName() && !byId("panel-assembly").hidden) return "task=" + taskName();
  const {text} = fields.text, name = byId("examples").value, parts = [];
  if (name) parts.push("example=" + name);
  else if (packed && packed.text === text) parts.push("packed");
  else if (text.length <= LONGEST_LINK) parts.push("name=" + encodeURIComponent(names.text), "session=" + await toLink(text));
  parts.push("moment=" + page.moment);
  if (page.looking.size) parts.push("look=" + [...page.looking].join(","));
  if (page.watched.length) parts.push("words=" + page.watched.join(","));
  return parts.join("&");
}

let remembering = 0, remembered = "";

/** Writes the address anew, and keeps the texts, a little later. */
function remember() {
  window.clearTimeout(remembering);
  remembering = window.setTimeout(async () => {
    remembered = "#" + await hashOf();
    try { history.replaceState(null, "", remembered); } catch { /* some browsers keep the address of a file */ }
  }, 300);
  keepLater();
}

/** The session that the address says, with its name.
 * @param {URLSearchParams} said
 * @returns {Promise<[string, string] | null>} */
async function sessionIn(said) {
  const name = said.get("example");
  if (said.has("session")) {
    try {
      return [said.get("name") || "session.its", await fromLink(said.get("session") || "")];
    } catch {
      alertOf(new Wrong("The address carries a session, but it is cut or changed."));
    }
  }
  if (name && exampleOf(name)) return [name, exampleOf(name)];
  return packed ? [packed.name, packed.text] : null;
}

/** Opens what the address says; without one, the session that the page was packed with, what the browser keeps, or the first view. */
export async function recall() {
  const said = new URLSearchParams(location.hash.slice(1)), own = kept().text;
  const list = (/** @type {string} */ what) => (said.get(what) || "").split(",").filter(word => /^[0-7]{1,6}$/.test(word));
  const session = await sessionIn(said) || (own && own.text.trim() && !examples.some(one => one.text === own.text) ? /** @type {[string, string]} */ ([own.name, own.text]) :
    null);
  const running = session ? setSession(...session) : setSession(IDEA.name, exampleOf(IDEA.name));
  page.moment = session ? Math.max(0, Math.floor(Number(said.get("moment"))) || 0) : IDEA.moment;
  (session ? list("look") : [IDEA.slot]).forEach(slot => page.looking.add(slot));
  page.watched.push(...new Set([...(packed ? packed.watch : []), ...list("words")]));
  await running;
}

/** Opens the task that the address says; whether it says one. */
export function recallTask() {
  const name = new URLSearchParams(location.hash.slice(1)).get("task");
  if (name !== null) openTask(name);
  return name !== null;
}

/** The address was changed by its reader. */
export function addressChanged() { if (location.hash !== remembered && !recallTask()) recall(); }

/** Copies a link that carries the session. */
export async function share() {
  const {text} = fields.text;
  if (text.length > LONGEST_LINK) {
    throw new Wrong("A link carries " + LONGEST_LINK + " characters at most, and this session has " + text.length + ": save it as a file.");
  }
  const link = location.href.replace(/#.*/, "") + "#" + await hashOf(), isOwn = location.protocol === "file:";
  await copy(link, "The link is copied: " + countOf(link.length, "character") + "." + (isOwn ?
    " It works on this machine alone, because the page was opened from a file: put docs/its.html on a server for others." : ""));
}

act.keep = remember;
