// Shared by the page and the commands: what a line did that its transcript does not show: whose alarm was due at a CLOCK line, and why a call
// failed after which a job is found. The program is asked: it runs the lines so far with others after them.

import {blocksOf} from "./readings.js";
import {joined, linesOf} from "./session.js";
import {Transcript, exchanges, peekOf, runsOf, slotOf, stateOf, turnsOf, wordsOf} from "./transcript.js";
import {ERRORS, MOST_ARGUMENTS, Wrong, bits, callName, isOn, number, octal, twelve, value} from "./words.js";

/** @typedef {import("./transcript.js").Exchange} Exchange */

/** Runs a session: its transcript.
 * @typedef {(session: string) => string} Ask */

const MOST_LINES = 100000;       // of all sessions that are run for one session
const BRK = 0o1, ALR = 0o400;
const COPY = 0o776000, ERROR = 0o776020;         // where a copy of a block and its error number are put
const LATER = "200";             // ticks that a job gets that is late, because its block is longer
const LOOKS = ["PEEK", "EXAM", "LIST", "DEPOSIT", "STOP"];       // lines at which somebody finds a job

/** Asks the program about a session. */
export class Probe {
  /** @param {Ask} ask
   * @param {Exchange[]} told */
  constructor(ask, told) {
    this.ask = ask;
    this.told = told;
    this.left = MOST_LINES;
    /** @type {Set<number>} */
    this.slots = new Set();      // those that the lines so far are about
    /** @type {Set<number>} */
    this.looked = new Set();     // those whose jobs were looked at since their last tick
    this.last = {load: -1, image: new Map()};    // the words that were asked for last, and the place of their LOAD line
  }

  /** The words that answer the last lines, if they follow lines of a session; null if a line is refused, or if too much was asked.
   * @param {string[]} before
   * @param {string[]} more
   * @returns {string[][] | null} */
  shows(before, more) {
    const session = joined([...before, ...more, "END"]);
    this.left -= before.length;
    if (this.left < 0) return null;
    try {
      const found = exchanges("", linesOf(session), new Transcript("", this.ask(session))).slice(before.length, before.length + more.length);
      return found.length === more.length && found.every(({reason}) => !reason) ? found.map(wordsOf) : null;
    } catch (problem) {
      if (!(problem instanceof Wrong)) throw problem;
      return null;
    }
  }

  /** The lines before one.
   * @param {number} at */
  before(at) { return this.told.slice(0, at).map(({line}) => line.text); }

  /** What a line did, as far as it is not seen in its answer. The lines are asked for in their order.
   * @param {number} at
   * @returns {string[]} */
  said(at) {
    const exchange = this.told[at], {line, reason} = exchange, slot = slotOf(exchange);
    if (slot !== null) this.slots.add(slot);
    if (reason || this.left < 0) return [];
    if (line.kind === "CLOCK") return this.alarms(at);
    if (line.kind === "STATE" && slot !== null) {
      this.looked.add(slot);
      return this.failure(at, slot, stateOf(wordsOf(exchange)));
    }
    const found = line.kind === "RUN" ? turnsOf(exchange).map(turn => this.stoppedIn(turn)) : line.kind === "TICK" ? [this.stoppedIn(exchange)] :
      LOOKS.includes(line.kind) ? [slot] : [];
    return [...new Set(found)].flatMap(one => one === null || this.looked.has(one) ? [] : this.lookedAt(at, one));
  }

  /** The slot of a T line, if the line shows that its job is stopped; else null. A tick of a job is something new to look at.
   * @param {Exchange} turn */
  stoppedIn(turn) {
    const runs = runsOf(turn), slot = number(turn.line.words[1]);
    if (runs.some(([, letter]) => letter !== "-")) this.looked.delete(slot);
    return runs.length && runs[runs.length - 1][1] === "-" ? slot : null;
  }

  /** Why a call failed after which a job is found at a line that does not show its PC: STATE is asked for.
   * @param {number} at
   * @param {number} slot */
  lookedAt(at, slot) {
    const load = this.loadOf(at, slot);
    this.looked.add(slot);
    if (load < 0 || !hasPlainCall(this.imageOf(load))) return [];
    const shown = this.shows(this.before(at + 1), ["STATE " + octal(slot)]);
    return shown ? this.failure(at, slot, stateOf(shown[0])) : [];
  }

  /** The place of the LOAD or JOB line that made the job in a slot; less than 0 if none did.
   * @param {number} at
   * @param {number} slot */
  loadOf(at, slot) {
    return this.told.slice(0, at).reduce((last, one, place) => ["LOAD", "JOB"].includes(one.line.kind) && slotOf(one) === slot ? place : last, -1);
  }

  /** The words that a LOAD or JOB line and those after it load.
   * @param {number} load
   * @returns {Map<number, string>} */
  imageOf(load) {
    if (this.last.load !== load) this.last = {load, image: imageAt(this.told, load)};
    return this.last.image;
  }

  /** Whose alarm was due at a CLOCK line, and out of which call its job was taken.
   * @param {number} at */
  alarms(at) {
    const before = this.slots.size ? this.before(at) : [];
    return [...this.slots].flatMap(slot => {
      const looks = ["PEEK", "STATE"].map(kind => kind + " " + octal(slot));
      const first = this.shows(before, looks), second = this.shows(before, [this.told[at].line.text, ...looks]);
      if (!first || !second) return [];
      const [was, is] = [first[0], second[1]].map(peekOf), [had, has] = [first[1], second[2]].map(words => number(stateOf(words).pending1));
      if (isOn(had, ALR) || !isOn(has, ALR)) return [];
      const frame = was.state === "USER" || is.state !== "USER" ? "" : "; its job is taken out of " +
        (was.call === "-" ? "a call" : callName(was.call)) + " (" + was.state + ")";
      return ["the alarm of slot " + octal(slot) + " was due: its bit ALR is set" + frame];
    });
  }

  /** Why the call failed after which a job is found, if its block has no error address: at the instruction after the call, which a call that
   * succeeds skips, or stopped by that instruction, a .BREAK. The lines are run again with a copy of the block that has an error address.
   * @param {number} at
   * @param {number} slot
   * @param {Record<string, string>} state
   * @returns {string[]} */
  failure(at, slot, state) {
    const pc = bits(state.pc, 18, 35), load = this.loadOf(at, slot), image = load < 0 ? new Map() : this.imageOf(load);
    const isStopped = isOn(number(state.pending1), BRK) && (image.get(pc - 1) || "").startsWith("0457"), place = isStopped ? pc - 2 : pc - 1;
    const copy = copyFor(image, place);
    if (!copy.length) return [];
    const isLast = (/** @type {string} */ kind, /** @type {string[]} */ words) => ["GO", "REGS"].includes(kind) ||
      kind === "RO" && value(words[1]) === place >> 10;
    const until = this.told.findIndex(({line: {kind, words}}, one) => one > load && isLast(kind, words)), name = octal(slot);
    const lines = this.before(at + 1), later = isStopped ? ["TICK " + name + " " + LATER] : [];
    const shown = this.shows([...lines.slice(0, until), ...copy, ...lines.slice(until)],
                             [...later, "STATE " + name, "EXAM " + name + " " + octal(ERROR) + " 1"]);
    const [after, word] = shown ? shown.slice(-2) : [];
    const error = after && word && bits(stateOf(after).pc, 18, 35) === pc ? number(word[3]) : 0;
    return ERRORS[error] ? ["the call at " + octal(place) + " failed: " + octal(error) + ", " + ERRORS[error]] : [];
  }
}

/** The argument words of the block that the call at a place names; nothing if it has an error address, or if there is no such call.
 * @param {Map<number, string>} image
 * @param {number} place
 * @param {Map<number, import("./readings.js").Block>} blocks
 * @returns {string[] | null} */
function plainWords(image, place, blocks) {
  const call = image.get(place) || "", block = call.startsWith("0430") ? blocks.get(bits(call, 18, 35)) : undefined;
  const words = block && block.isEnded ? block.words.map(address => image.get(address) || "0") : [];
  return words.length && words.length < MOST_ARGUMENTS && words.every(word => bits(word, 6, 8) !== 3) ? words : null;
}

/** Whether there is a call whose block has no error address.
 * @param {Map<number, string>} image */
function hasPlainCall(image) {
  const blocks = blocksOf(image);
  return [...image.keys()].some(place => plainWords(image, place, blocks));
}

/** Lines that load a copy of the block of the call at a place, with an error address, and let the call name it; none if there is none to copy.
 * @param {Map<number, string>} image
 * @param {number} place
 * @returns {string[]} */
function copyFor(image, place) {
  const words = plainWords(image, place, blocksOf(image));
  if (!words || [...image.keys()].some(address => address >= COPY)) return [];
  const rest = words.map((word, one) => one < words.length - 1 ? word : octal(value(word) % 2 ** 35));
  const name = image.get(bits(image.get(place) || "", 18, 35) + 1);
  return [octal(COPY) + "/ 400000000000 " + [name, ...rest, "403000" + octal(ERROR)].join(" "), octal(ERROR) + "/ 0",
          octal(place) + "/ 43000" + octal(COPY)];
}

/** The words that the block of a LOAD line loads, or that follow a JOB line.
 * @param {Exchange[]} told
 * @param {number} at of the LOAD or JOB line
 * @returns {Map<number, string>} */
export function imageAt(told, at) {
  const image = new Map();
  for (let next = at + 1; next < told.length && told[next].line.block && !["GO", "JOB", "REGS", "READY"].includes(told[next].line.kind); next += 1) {
    const {kind, words} = told[next].line;
    if (kind !== "a/" || told[next].reason) continue;
    words.slice(1).forEach((word, place) => image.set(value(words[0].slice(0, -1)) + place, twelve(word)));
  }
  return image;
}
