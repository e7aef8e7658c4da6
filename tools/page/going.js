// The page: a session goes on at a terminal: the jobs run till all wait, and a console puts out what it has.

import {joined} from "../lib/session.js";
import {wordsOf} from "../lib/transcript.js";
import {countOf, octal, value} from "../lib/words.js";
import {runSession} from "./running.js";

/** @typedef {import("../lib/engine.js").Engine} Engine */

const FEWEST_TURNS = 4, MOST_TURNS = 0o1000, QUANTUM = 0o100;      // of a RUN line with which a terminal goes on
const MOST_RUNS = 200, MOST_TICKS = 20000000;      // RUN lines, and ticks in all, before it stops to ask; each line runs the session anew

/** Whether a RUN line of so many turns shows that all jobs that run wait: each had a turn, and nobody did anything in the last turns, one for
 * each.
 * @param {string[]} answer
 * @param {number} turns */
function allWait(answer, turns) {
  const slots = new Set(answer.map(one => one.split(" ")[1])), isRound = answer.length > slots.size || answer.length < turns;
  return isRound && answer.slice(-slots.size).every(one => /^T [0-7]+ [0-7]+w$/.test(one));
}

/** Goes on with a session at a terminal: adds lines at its end, and runs it till all jobs wait and the console has put out all. Gives the
 * session, the bytes that came out, and why it stopped: waits, idle, refused or long.
 * @param {Engine} engine
 * @param {string} text
 * @param {string[]} added
 * @param {string} console
 * @param {(said: string) => void} progress
 * @returns {{whole: string, bytes: number[], why: string, reason?: string}} */
export function goOn(engine, text, added, console, progress) {
  let whole = text + joined(added), turns = FEWEST_TURNS, ticks = 0, allTicks = 0;
  /** @type {number[]} */
  const bytes = [];
  const next = (/** @type {string} */ line) => {
    const run = runSession(engine, "the session", whole + line + "\n"), told = run.told.filter(one => one.line.kind || one.reason);
    if (!run.reason) whole += line + "\n";
    return {...told[told.length - 1], reason: run.reason};
  };
  for (let runs = 0; runs < MOST_RUNS && allTicks < MOST_TICKS; runs += 1) {
    const ran = next(["RUN", octal(turns), octal(QUANTUM)].join(" "));
    if (ran.reason) return {whole, bytes, why: "refused", reason: ran.reason};
    const drained = wordsOf(next("DRAIN " + console + " 100")).slice(2);
    bytes.push(...drained.map(value));
    progress(countOf(bytes.length, "byte") + " put out");
    if (!drained.length && !ran.answer.length) return {whole, bytes, why: "idle"};
    if (!drained.length && allWait(ran.answer, turns)) return {whole, bytes, why: "waits"};
    ticks += turns * QUANTUM;
    allTicks += ticks;
    if (!drained.length) turns = Math.min(MOST_TURNS, 2 * turns);
  }
  return {whole, bytes, why: "long"};
}
