// The page: the Assembly tab: a text of the assembler or of MIDAS, its mistakes or its listing, and its image put into the session.

import {asVersion2, joined, split} from "../lib/session.js";
import {setSession} from "./editor.js";
import {alertOf, buttonOf, byId, element, noteOf} from "./dom.js";
import {beginningOf, fields} from "./field.js";
import {isOwn, names, replace} from "./keeping.js";
import {act, examples, program} from "./state.js";

/** @typedef {import("./assembling.js").MadeText} MadeText */

/** The image that is at hand, and the number of the question that asked for it.
 * @type {{made: MadeText | null, asked: number}} */
export const assembly = {made: null, asked: 0};

/** Assembles the text, and shows what it is made into. Until then, there is no image to take. */
export async function assembleText() {
  const {text} = fields.source, asked = assembly.asked += 1;
  act.assembled();
  byId("take").disabled = true;
  byId("take").title = "The text is assembled first";
  const files = Object.fromEntries(examples.filter(one => !one.name.startsWith("system/")).map(one => [one.name.replace(/^.*\//, ""), one.text]));
  const made = text.trim() ? await program.ask("assemble", {name: names.source, text, files}, "Assembling the text") : null;
  if (asked === assembly.asked) showMade(made);
}

/** Shows what the text is made into, as its reader wants it.
 * @param {MadeText | null} made */
function showMade(made) {
  const result = byId("source-result"), isGood = Boolean(made && made.session), way = byId("made-as").value;
  assembly.made = made;
  byId("take").disabled = !isGood;
  byId("take").title = isGood ? "" : "There is no image: the text is empty, or a line of it is refused";
  result.classList.toggle("bad", Boolean(made && made.mistakes.length));
  byId("assembled").textContent = !made ? "" : way === "listing" ? beginningOf(made.listing.join("\n") + "\n") :
    way === "plain" ? beginningOf(made.plain || "This text is not in MIDAS.\n") : beginningOf(made.session);
  if (!made) result.textContent = "";
  else if (!made.mistakes.length) result.textContent = "Assembled: " + made.about + ".";
  else result.replaceChildren(...made.mistakes.map(mistakeElement));
}

/** Shows it in the other form. */
export function showAgain() { showMade(assembly.made); }

/** A mistake, with its line to go to.
 * @param {{line: number, column: number, said: string}} mistake */
function mistakeElement({line, column, said}) {
  const own = line ? split(fields.source.text)[line - 1] || "" : "", box = element("p", "mistake", said + (/[.?!]$/.test(said) ? " " : ". "));
  if (line) box.append(buttonOf("Go there", () => fields.source.select(line)));
  if (line && column && column < 200 && !said.includes("\n")) box.append(element("pre", "", own + "\n" + " ".repeat(column - 1) + "^"));
  return box;
}

/** Shows an assembly text, and assembles it.
 * @param {string} name
 * @param {string} text */
export function setSource(name, text) {
  replace("source", name, text);
  byId("sources").value = examples.some(one => one.name === name && one.text === text) ? name : "";
  assembleText().catch(alertOf);
}

/** The text was changed. */
export function sourceChanged() {
  byId("sources").value = "";
  assembleText().catch(alertOf);
}

/** What a session goes on with that has nothing else yet: its jobs run, and what they put out is shown.
 * @param {string} image */
function tailOf(image) {
  const found = /^LOAD +\S+ +\S+ +(\S+)/m.exec(image), console = found ? found[1] : "-";
  return ["RUN 20 40", ...(console === "-" ? [] : ["DRAIN " + console + " 100"]), "END"];
}

/** Whether a line is the LOAD of a job.
 * @param {string} line
 * @param {string} job its names */
function isLoadOf(line, job) { return /^ *LOAD /.test(line) && line.trim().split(/ +/).slice(1, 3).join(" ") === job; }

/** A session with the image of an assembly text: in place of the job of the same names, else after the last job that is loaded before anything
 * else happens. It has version 2.
 * @param {string} session
 * @param {string} image
 * @param {string} job its names */
export function withImage(session, image, job) {
  const own = split(image).filter(line => line !== "VERSION 2" && line !== "END"), lines = asVersion2(split(session));
  const start = lines.findIndex(line => isLoadOf(line, job)), end = lines.findIndex((line, at) => at > start && /^ *GO /.test(line));
  if (start >= 0 && end > start) lines.splice(start, end - start + 1, ...own);
  else lines.splice(afterLoads(lines), 0, ...own);
  const isBare = !lines.some(line => /^ *(TICK|RUN|END) ?/.test(line));
  return joined([...lines, ...(isBare ? tailOf(image) : [])]);
}

/** The place after the last job that is loaded before a line that does something else. The state part comes before it.
 * @param {string[]} lines */
function afterLoads(lines) {
  const ready = /^ *SYSTEM /.test(lines[0]) ? lines.findIndex(line => /^ *READY *$/.test(line)) : 0;
  let place = Math.max(0, ready) + 1;
  for (let at = place; at < lines.length; at += 1) {
    const [kind = ""] = lines[at].trim().split(" ");
    if (kind === "GO") place = at + 1;
    else if (kind && !kind.startsWith(";") && !kind.endsWith("/") && !["LOAD", "SYM", "RO", "FILE", "EOF"].includes(kind)) break;
  }
  return place;
}

/** Puts the image into the session, beside its other jobs, and shows it. A session that is an example is left: then the job has one of its
 * own. */
export function takeImage() {
  const {made} = assembly;
  if (!made) return;
  const session = fields.text.text, isBeside = isOwn("text") || split(session).some(line => isLoadOf(line, made.names));
  act.choose("session");
  setSession(isOwn("text") ? names.text : names.source.replace(/\.(asm|mid)$/, ".its"), withImage(isBeside ? session : "", made.session, made.names));
  noteOf("The job " + made.names + " is in the session" + (isBeside ? ", beside its other jobs" : "") + ". Undo brings back the one before.");
}
