// The page: the Terminal tab: the jobs run till all wait, and each key at a console becomes lines of the session, which is run anew from its
// beginning.

import {visible} from "../lib/keys.js";
import {asVersion2, isInState, joined, linesOf} from "../lib/session.js";
import {INTERRUPT} from "../lib/telnet.js";
import {octal, value} from "../lib/words.js";
import {byId, on, tried} from "./dom.js";
import {setSession} from "./editor.js";
import {fields} from "./field.js";
import {keepLater, keepMore, kept} from "./keeping.js";
import {Screen} from "./screen.js";
import {act, exampleOf, program} from "./state.js";

/** @typedef {import("../lib/session.js").Line} Line */
/** @typedef {import("../lib/told.js").Told} Told */

const SECOND = "36";                     // thirtieths, in octal
const FIRST = "edit.its", PROMPT = "hello";      // what is run first, and what is typed there, so that one sees something
const HINT = " Press Return: the job writes the line backwards. Control-Z stops it in its call.";
const LOADING = ["LOAD", "a/", "RO", "SYM", "GO", "FILE", "/", "EOF", ""];      // lines that load jobs and files
/** @type {Record<string, string>} */
const WHY = {waits: "All jobs wait.", idle: "No job runs.", long: "The jobs still run after many turns; a key goes on.",
             refused: "A line is refused: "};

export const terminal = {text: "", console: "0", slot: "0", queue: /** @type {string[]} */ ([]), hint: "", isBusy: false, isStale: false, begun: false};

/** The first lines of a session: the state part, and those that load jobs and files, up to the first that does more; as version 2, which has RUN.
 * @param {string} text */
function loadsOf(text) {
  const lines = linesOf(text), isFirst = (/** @type {Line} */ {number, kind}) => number === 1 && kind === "VERSION";
  const end = lines.findIndex(line => line.ended || !isInState(line) && !isFirst(line) && !LOADING.includes(line.kind));
  return joined(asVersion2(lines.slice(0, end).map(line => line.text)));
}

/** The jobs that such lines make: the console of each, by its slot. LOAD takes the least slot without a job.
 * @param {string} text */
function jobsOf(text) {
  /** @type {Map<number, string>} */
  const jobs = new Map();
  for (const {kind, words} of linesOf(text)) {
    let slot = 0;
    while (jobs.has(slot)) slot += 1;
    if (kind === "JOB" && words.length > 4) jobs.set(value(words[1]), words[4]);
    else if (kind === "LOAD" && words.length > 3) jobs.set(slot, words[3]);
  }
  return jobs;
}

/** Begins anew with the jobs of a session. */
export function beginTerminal() {
  const name = byId("terminal-example").value;
  terminal.text = loadsOf(name ? exampleOf(name) : fields.text.text);
  const jobs = [...jobsOf(terminal.text)].filter(([, console]) => console !== "-");
  const consoles = [...new Set(jobs.map(([, console]) => octal(value(console))))];
  byId("terminal-console").replaceChildren(...(consoles.length ? consoles : ["0"]).map(console => new Option(console, console)));
  terminal.console = byId("terminal-console").value;
  terminal.slot = octal((jobs.find(([, console]) => octal(value(console)) === terminal.console) || [0])[0]);
  terminal.begun = true;
  terminal.isStale = terminal.isBusy;
  terminal.queue = [];
  terminal.hint = name === FIRST ? HINT : "";
  screen.put("");
  byId("terminal-look").hidden = true;
  typeLines(name === FIRST ? ["TYPE " + terminal.console + [...PROMPT].map(one => " " + octal(one.charCodeAt(0))).join("")] : []);
}

/** Goes on as the terminal was left, when the page was open before. Whether it was.
 * @param {*} was */
function goOnAgain(was) {
  if (!was || !was.text) return false;
  Object.assign(terminal, {text: was.text, console: was.console, slot: was.slot, begun: true});
  byId("terminal-example").value = was.example;
  byId("terminal-console").replaceChildren(new Option(was.console, was.console));
  screen.put(was.screen);
  typeLines([]);
  return true;
}

/** The tab is shown: it goes on as it was left, else the editor of lines runs there. */
export function showTerminal() {
  if (terminal.begun || goOnAgain(kept().terminal)) return;
  byId("terminal-example").value = FIRST;
  beginTerminal();
}

/** Adds lines at the end of the session and goes on, one call after the other. If another session was begun meanwhile, an answer belongs to the
 * one before, and is not shown.
 * @param {string[]} lines */
function typeLines(lines) {
  terminal.queue.push(...lines);
  if (lines.length) byId("terminal-look").hidden = true;
  if (terminal.isBusy) return;
  terminal.isBusy = true;
  tried(async () => {
    try {
      do {
        const added = terminal.queue.splice(0);
        terminal.isStale = false;
        const answer = await program.ask("terminal", {text: terminal.text, lines: added, console: terminal.console}, "Running the jobs");
        if (!terminal.isStale) showGone(answer);
      } while (terminal.isStale || terminal.queue.length);
    } finally {
      terminal.isBusy = false;
    }
  });
}

/** Shows how far the session went on.
 * @param {{bytes: number[], why: string, reason?: string, whole: string}} answer */
function showGone({bytes, why, reason, whole}) {
  if (why !== "refused") terminal.text = whole;
  screen.show(visible(bytes));
  keepLater();
  byId("terminal-said").textContent = WHY[why] + (why === "refused" ? reason + "." : why === "waits" ? terminal.hint : "");
}

/** Types a byte at the console. Control-Z stops the job instead.
 * @param {number} byte */
function typeByte(byte) {
  if (byte === INTERRUPT) tried(stopAndLook);
  else if (terminal.begun) typeLines(["TYPE " + terminal.console + " " + octal(byte)]);
}

const screen = new Screen("screen", typeByte);

/** Stops the job of the console, and shows what STATE and PEEK say of this job. Keys that are typed meanwhile follow. */
export async function stopAndLook() {
  if (!terminal.begun || terminal.isBusy) return;
  const lines = ["PEEK " + terminal.slot, "STOP " + terminal.slot, "STATE " + terminal.slot], text = terminal.text + joined(lines);
  terminal.isBusy = true;
  try {
    const {told} = await program.ask("look", {name: "the session at the terminal", text}, "Looking");
    if (!terminal.isStale) showLook(text, told, lines.length);
  } finally {
    terminal.isBusy = false;
  }
  if (terminal.isStale || terminal.queue.length) typeLines([]);
}

/** Shows what the last lines of a session say of the job, and goes on with that session if they are taken.
 * @param {string} text
 * @param {Told[]} told
 * @param {number} count */
function showLook(text, told, count) {
  const last = told[told.length - 1];
  byId("terminal-look").hidden = false;
  byId("terminal-look").textContent = told.slice(-count).map(one => [one.text, ...one.answer.map(said => "  " + said),
    ...one.means.map(said => "      " + said)].join("\n")).join("\n");
  if (last.refused) byId("terminal-said").textContent = "There is no job in slot " + terminal.slot + " now.";
  else {
    terminal.text = text;
    byId("terminal-said").textContent = "The job in slot " + terminal.slot + " is stopped, in user mode. Continue lets it run on.";
  }
}

/** Lets the tab act. */
export function wireTerminal() {
  keepMore("terminal", () => terminal.begun ? {text: terminal.text, console: terminal.console, slot: terminal.slot,
                                               example: byId("terminal-example").value, screen: screen.text} : kept().terminal);
  on("terminal-example", "change", beginTerminal);
  on("terminal-begin", "click", beginTerminal);
  on("terminal-console", "change", ({target}) => { terminal.console = target.value; });
  on("terminal-stop", "click", () => tried(stopAndLook));
  on("terminal-cont", "click", () => typeLines(["CONT " + terminal.slot]));
  on("terminal-clock", "click", () => typeLines(["CLOCK " + SECOND]));
  on("terminal-session", "click", () => {
    act.choose("session");
    setSession("terminal.its", terminal.text + "END\n");
  });
}
