// The page: the moments of a session as far as its lines and their answers show them: after each line, and after each single tick.

import {isOpenAfter} from "../lib/session.js";
import {runsOf, slotOf} from "../lib/transcript.js";
import {number, octal} from "../lib/words.js";

/** @typedef {import("../lib/transcript.js").Exchange} Exchange */
/** @typedef {ReturnType<typeof import("../lib/transcript.js").peekOf>} Peek */

/** A moment: its line, how many lines come before it, its own lines (of a block all, of a TICK its ticks so far), the slot, the letter of a tick,
 * the slots in which LOAD or JOB lines made jobs, whether the line is refused, and what PEEK shows of each job.
 * @typedef {{line: number, since: number, now: string[], slot: number | null, letter: string, made: number[], refused: boolean,
 *            jobs: Map<number, Peek>}} Moment */

export const GROUP = 8;                  // so many words are looked at by one EXAM
export const ACCUMULATORS = 16;
const MAKE = ["LOAD", "JOB"];            // lines that make a job
/** Which word of a line names a console.
 * @type {Record<string, number>} */
const CONSOLES = {LOAD: 3, JOB: 4, TYPE: 1, DRAIN: 1, IN: 1, OUT: 1, HOLD: 1};

/** The beginning of a session, and each moment begins so.
 * @returns {Moment} */
function beginning() { return {line: 0, since: 0, now: [], slot: null, letter: "", made: [], refused: false, jobs: new Map()}; }

/** The moments of a session, and its lines that are no comments.
 * @param {Exchange[]} told */
export function momentsOf(told) {
  /** @type {string[]} */
  const texts = [];
  const moments = [beginning()];
  /** @type {string[]} */
  let block = [];
  /** @type {number[]} */
  let made = [];
  const add = (/** @type {Exchange} */ {line}, /** @type {Partial<Moment>} */ more) =>
    moments.push({...beginning(), line: line.number, since: texts.length, now: block, ...more});
  for (const exchange of told) {
    const {line, reason} = exchange;
    if (reason) {
      add(exchange, {refused: true});
      break;
    }
    if (line.kind === "" || line.kind === "END") continue;
    block = [...block, line.text];
    if (MAKE.includes(line.kind)) made.push(slotOf(exchange) || 0);
    if (isOpenAfter(line)) continue;
    if (line.kind === "TICK") {
      const slot = slotOf(exchange) || 0;
      let at = 0;
      for (const [count, letter] of runsOf(exchange)) {
        for (let one = 0; one < count; one += 1) {
          at += 1;
          add(exchange, {now: ["TICK " + octal(slot) + " " + octal(at)], slot, letter});
        }
      }
    } else add(exchange, {slot: made.length === 1 ? made[0] : made.length ? null : slotOf(exchange), made});
    texts.push(...block);
    block = [];
    made = [];
  }
  return {texts, moments};
}

/** The consoles that the lines of a session name.
 * @param {Exchange[]} told */
export function consolesOf(told) {
  const named = told.filter(({line, reason}) => CONSOLES[line.kind] && !reason)
    .map(({line}) => line.words[CONSOLES[line.kind]]).filter(console => console !== "-");
  return [...new Set(named.map(console => octal(number(console))))].sort();
}

/** The groups of words from an address on.
 * @param {number} start
 * @param {number} count */
export function groupsOf(start, count) {
  const groups = [];
  for (let group = Math.floor(start / GROUP); group * GROUP < start + count; group += 1) groups.push(group);
  return groups;
}

/** Numbers in rising order.
 * @param {Iterable<number>} numbers */
export function sorted(numbers) { return [...numbers].sort((one, other) => one - other); }

/** The page that has an address.
 * @param {number} address */
export function pageOf(address) { return Math.floor(address / 1024); }

/** The pages that jobs are made with, by their slots, for the line that ends a LOAD block or the state part. The accumulators are in none.
 * @param {Exchange[]} told */
export function imageOf(told) {
  /** @type {Map<number, Map<number, number[]>>} */
  const image = new Map();
  /** @type {Map<number, number[]>} */
  let jobs = new Map();
  let slot = 0;
  for (const exchange of told.filter(({reason}) => !reason)) {
    const {line} = exchange;
    if (MAKE.includes(line.kind)) jobs.set(slot = slotOf(exchange) || 0, []);
    else if (line.kind === "a/") {
      const start = number(line.words[0].slice(0, -1)), places = line.words.slice(1).map((_, at) => start + at).filter(at => at >= ACCUMULATORS);
      jobs.set(slot, sorted(new Set([...jobs.get(slot) || [], ...places.map(pageOf)])));
    } else if (line.kind === "GO" || line.kind === "READY") {
      image.set(line.number, jobs);
      jobs = new Map();
    }
  }
  return image;
}

/** The groups of words that a session names in its a/, EXAM, LIST and DEPOSIT lines.
 * @param {Exchange[]} told */
export function namedIn(told) {
  /** @type {Set<number>} */
  const named = new Set();
  for (const {line: {kind, words}} of told.filter(({reason}) => !reason)) {
    if (kind === "a/") groupsOf(number(words[0].slice(0, -1)), words.length - 1).forEach(group => named.add(group));
    else if (["EXAM", "LIST", "DEPOSIT"].includes(kind)) {
      groupsOf(number(words[2]), kind === "DEPOSIT" ? 1 : number(words[3])).forEach(group => named.add(group));
    }
  }
  return named;
}

/** What a session shows, without the PEEKs that were put in: letters of ticks one by one, a refusal without the number of its line.
 * @param {Exchange[]} told
 * @returns {string[]} */
export function answersOf(told) {
  return told.flatMap(exchange => {
    if (exchange.reason) return ["? " + exchange.reason];
    if (exchange.line.kind !== "TICK") return exchange.answer;
    return runsOf(exchange).flatMap(([count, letter]) => Array(count).fill(octal(slotOf(exchange) || 0) + " " + letter));
  });
}
