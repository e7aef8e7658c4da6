// The page: what the words of a job mean to its call, and the place of the job in its call. Nothing here asks the program or the document.

import {callText} from "../lib/readings.js";
import {Symbols} from "../lib/symbols.js";
import {asciiOf, bits, bytePointer, callName, character, countOf, flagsOf, isPrinting, octal, pendingNames, short, sixbit, twelve,
        value} from "../lib/words.js";
import {GROUP, pageOf} from "./outline.js";

/** @typedef {import("./looks.js").JobShown} JobShown */
/** @typedef {import("./sources.js").Placed} Placed */

/** The word that somebody finds at an address of a job, or why there is none.
 * @param {JobShown} job
 * @param {number} address
 * @returns {{word?: string, why: string}} */
export function wordAt(job, address) {
  const group = job.words[Math.floor(address / GROUP)];
  if (group) return {word: short(group[address % GROUP]), why: ""};
  if (!job.pages.includes(pageOf(address))) return {why: "no page here: EXAM would be refused as NOPAGE"};
  return {why: "not looked at: type its address below"};
}

/** A byte that can be printed, in quotes; else nothing.
 * @param {string} word */
export function printed(word) { return isPrinting(value(word)) ? character(value(word)) : ""; }

/** A word as text: in ASCII; in SIXBIT too, if it has one character in ASCII at most.
 * @param {string} word */
function texts(word) {
  const said = asciiOf(twelve(word)), text = /^"[^<]*"$/.test(said) ? said : "";
  const name = sixbit(word), isName = /^[A-Z][A-Z0-9]*$/.test(name) && text.length < 4;
  return [text && text + " in ASCII", isName && name + " in SIXBIT"].filter(Boolean).join(", ");
}

/** What a word means to its call.
 * @param {string} role
 * @param {string} word */
export function meaning(role, word) {
  if (role === "pointer") return bytePointer(twelve(word));
  if (role === "count") return word === "0" ? "none to go" : value(word) + " to go";
  if (role === "time") return bits(word, 0, 0) ? "minus the time of waking, " + octal(2 ** 36 - value(word)) : word + " thirtieths of a second";
  if (/^(device|variable|directory|name \d|new name \d)$/.test(role)) return sixbit(word) && sixbit(word) + " in SIXBIT";
  if (role === "byte" || role === "its word") return printed(word) || texts(word);
  return texts(word) || callText(twelve(word));
}

/** Bytes that wait at a console.
 * @param {string[]} bytes */
export function bytesText(bytes) {
  if (bytes.length === 0) return "nothing";
  return bytes.map(byte => printed(byte) || "<" + byte + ">").join(" ") + "  (" + bytes.join(" ") + ")";
}

/** The symbol nearest at or below an address that the assembly text gives a word, or at any other address; nothing if none is known.
 * @param {Placed | undefined} source
 * @param {number} address */
export function symbolAt(source, address) {
  const found = source ? new Symbols(source.symbols).nearest(address) : "";
  return source && (!found.includes("+") || source.places.some(([place]) => place === address)) ? found : "";
}

/** The symbol that STATE names, which version 2 of the session text has.
 * @param {Record<string, string>} state */
export function symbolOf(state) {
  return (state.symbol || "-") === "-" ? "" : sixbit(state.symbol) + (state.past === "0" ? "" : "+" + state.past);
}

/** Whose job it is, and whether it runs.
 * @param {Record<string, string>} state */
export function jobNotes(state) {
  return [state.superior !== "-" && "inferior of slot " + state.superior, state.console !== "-" && "console " + state.console,
          state.run === "STOP" && "stopped"].filter(Boolean).join(", ");
}

/** The address of the PC that STATE shows.
 * @param {JobShown} job */
export function pcIn(job) { return value(job.state.pc.slice(6)); }

/** Where the PC of a job is that somebody finds inside a call: at the call, after it, or at the place that DISMIS goes back to.
 * @param {JobShown} job */
export function pcPlace(job) {
  const pc = pcIn(job), {call} = job;
  if (job.peek.state === "USER" || !call) return "";
  if (pc === value(call.at)) return "at the call";
  if (call.name === "DISMIS") return "at the interrupted place";
  return pc - value(call.at) <= 2 && pc > value(call.at) ? "after the call" : "elsewhere";
}

/** What somebody finds, in a sentence.
 * @param {JobShown} job
 * @param {boolean} restored whether a word is another one then */
export function verdict(job, restored) {
  if (job.peek.state === "USER") return "In user mode already: looking changes nothing.";
  const pc = octal(pcIn(job)), steps = "After " + countOf(job.peek.left, "small step") + " it is in user mode, ";
  switch (pcPlace(job)) {
    case "at the call": return steps + (restored ? "at its call, which says what remains." : "at its call, as if it had not been made.");
    case "after the call": return steps + "after its call, which is over.";
    case "at the interrupted place": return steps + "at the place " + pc + " that was interrupted: its call is over, and went back there.";
    default: return steps + "with its PC at " + pc + ".";
  }
}

/** The registers that STATE shows.
 * @param {Record<string, string>} state */
export function stateText(state) {
  const word = (/** @type {string} */ name) => octal(value(state[name])), pending = pendingNames(state.pending1).join(", ");
  return "STATE shows: " + [
    state.run, "flags " + (flagsOf(state.pc).join(", ") || "none"), "pending " + word("pending1") + " " + word("pending2") +
    (pending && " (" + pending + ")"), "masks " + word("mask1") + " " + word("mask2"),
    "deferrals " + word("defer1") + " " + word("defer2")].join("; ") + ".";
}

/** Where the job of a slot is, in a sentence.
 * @param {string} slot
 * @param {JobShown | undefined} job */
export function whereabouts(slot, job) {
  if (!job) return " No job is in slot " + slot + ".";
  if (job.peek.state === "USER") return " Slot " + slot + " is in user mode.";
  const call = job.peek.call === "-" ? "" : " in " + callName(job.peek.call);
  return " Slot " + slot + ": " + job.peek.state + call + ", " + countOf(job.peek.left, "step") + " from user mode.";
}
