// Shared by the page and the commands: a session that is disturbed after one of its ticks, and what that changes.

import {countOfTicks, linesBefore, linesBehind, ticksOf, turnsByLine} from "./cutting.js";
import {atLine, joined, split} from "./session.js";
import {peekOf, stateOf, toldOf, wordsOf} from "./transcript.js";
import {FATAL, Wrong, callName, countOf, counted, number, octal, typed} from "./words.js";

/** @typedef {import("./transcript.js").Exchange} Exchange */
/** @typedef {import("./cutting.js").Tick} Tick */
/** @typedef {import("./cutting.js").Range} Range */

export const MOST = 4096;   // ticks that are disturbed
export const SETTLE = 128;  // ticks that each slot gets after the last TICK line, if nobody says how many
const ROUNDS = 4;           // the ticks after the last TICK line come in so many rounds, slot by slot

/** How a job is disturbed. STATE shows the pending bits that CONT clears.
 * @type {Record<string, string[]>} */
export const WAYS = {exam: ["EXAM s 0 1"], state: ["STATE s"], stop: ["STOP s", "STATE s", "CONT s"]};

/** What a run shows at its end: lines of the session with their answers, and the bytes of each console.
 * @typedef {{looks: [string, string[]][], drained: Map<string, string[]>}} Seen */

/** A disturbed run: the frame that the job was met in, with the name of its call; how many steps brought it to user mode; what differs from the
 * undisturbed run, nothing if it is the same; the fatal pending bits that CONT cleared, and whether INT set them again.
 * @typedef {{tick: Tick, frame: string, left: number, differs: string, fatal: number, again: boolean}} Met */

/** Whether a job that waits, or does not run, is at a tick as at the tick before: both are of one line, have its letter, and the same letter follows.
 * @param {Tick} before
 * @param {Tick} tick */
function isAsBefore(before, tick) {
  return "w-".includes(tick.letter) && before.letter === tick.letter && tick.next === tick.letter && before.line === tick.line &&
    before.slot === tick.slot && before.earlier.length === tick.earlier.length;
}

/** Whether a line gives ticks.
 * @param {Exchange} exchange */
function isTicks({line}) { return line.kind === "TICK" || line.kind === "RUN"; }

/** The lines of a session with ticks more of each of its slots after its last TICK line.
 * @param {string[]} lines
 * @param {Exchange[]} told
 * @param {number} more */
function settled(lines, told, more) {
  const asked = told.filter(isTicks), last = asked[asked.length - 1].line.number, share = Math.ceil(more / ROUNDS);
  const slots = [...new Set(asked.flatMap(({answer}) => answer.map(one => number(one.split(" ")[1]))))].sort((one, other) => one - other);
  const extra = share ? Array(ROUNDS).fill(slots.map(slot => "TICK " + octal(slot) + " " + octal(share))).flat() : [];
  return [...lines.slice(0, last), ...extra, ...lines.slice(last)];
}

/** What a run shows at its end.
 * @param {Exchange[]} told
 * @returns {Seen} */
export function seenOf(told) {
  const last = told.reduce((found, exchange, at) => isTicks(exchange) ? at : found, 0);
  /** @type {Map<string, string[]>} */
  const drained = new Map();
  for (const exchange of told.filter(({line}) => line.kind === "DRAIN")) {
    const [, console, ...bytes] = wordsOf(exchange);
    drained.set(console, [...(drained.get(console) || []), ...bytes]);
  }
  const looks = told.slice(last).filter(({line}) => ["EXAM", "LIST", "DIR", "SHOW"].includes(line.kind));
  return {looks: looks.map(({line, answer}) => [line.text.trim(), answer]), drained};
}

/** How far a job is inside a call, with the name of the call, and how many steps bring it to user mode.
 * @param {{state: string, call: string, left: number}} peek */
export function frameOf({state, call, left}) { return {frame: call === "-" ? state : callName(call) + " " + state, left}; }

/** What differs between two runs, nothing if nothing does. The second one was disturbed, or saved.
 * @param {Seen} one
 * @param {Seen} other */
export function differenceOf(one, other, how = "disturbed") {
  for (const [console, taken] of one.drained) {
    const found = other.drained.get(console) || [];
    if (found.join(" ") !== taken.join(" ")) return "console " + console + ": " + typed(taken) + ", " + how + " " + typed(found);
  }
  for (const [at, [text, first]] of one.looks.entries()) {
    const second = (other.looks[at] || ["", first])[1];
    if (first.join("\n") !== second.join("\n")) return text + ": " + first.join(" | ") + ", " + how + " " + second.join(" | ");
  }
  return "";
}

/** A session that is to be disturbed, from what it shows as it is. */
export class Disturbance {
  /** @param {string} name
   * @param {string} session
   * @param {string} transcript
   * @param {string} way how its jobs are disturbed
   * @param {number} more so many ticks each slot gets after the last TICK line
   * @param {Range} range which ticks are disturbed
   * @param {boolean} isEach also those at which the job is as after the tick before
   * @param {boolean} everywhere also those after which the slot has no job that runs */
  constructor(name, session, transcript, way, more, range, isEach = false, everywhere = false) {
    this.name = name;
    this.way = way;
    const told = toldOf(name, session, transcript), last = told[told.length - 1];
    if (last.reason) throw new Wrong(name + ": " + atLine(last.line.number) + " is refused as " + last.reason + "; tools/explain says why");
    this.count = countOfTicks(told);     // how many ticks the session has
    if (!this.count) throw new Wrong(name + ": there is no TICK line");
    /** @type {Tick[]} */
    this.ticks = [];
    this.skipped = 0;                    // ticks at which the job is as after the tick before
    let before = null;
    for (const tick of ticksOf(told, range)) {
      // by the letters the job may run
      if (!everywhere && (tick.next === "-" || !tick.next && tick.letter === "-")) before = null;
      else if (!isEach && before && isAsBefore(before, tick)) this.skipped += 1;
      else {
        this.ticks.push(tick);
        before = tick;
      }
      if (this.ticks.length > MOST) {
        throw new Wrong(name + ": " + countOf(countOfTicks(told, range), "tick") + " would be disturbed, and " + counted(MOST) +
                        " may be: narrow them by --from, --to or --slot");
      }
    }
    this.turns = turnsByLine(told);
    this.lines = settled(split(session), told, more);
    this.plain = joined(this.lines);     // the undisturbed session
    /** @type {Seen} */
    this.seen = {looks: [], drained: new Map()};
  }

  /** Takes what the undisturbed run shows.
   * @param {string} transcript */
  take(transcript) {
    this.seen = seenOf(toldOf(this.name, this.plain, transcript));
    if (!this.seen.looks.length && !this.seen.drained.size) {
      throw new Wrong(this.name + ": there is nothing to compare: let EXAM, LIST, DIR, SHOW or DRAIN lines follow the last TICK line");
    }
  }

  /** The session up to a tick, and one tick more of the same slot: its letter shows whether the job runs.
   * @param {Tick} tick */
  probe(tick) { return joined([...linesBefore(this.lines, tick), "TICK " + octal(tick.slot) + " 1"]); }

  /** The session, disturbed after a tick; fatal bits are set again.
   * @param {Tick} tick */
  session(tick, fatal = 0) {
    const slot = octal(tick.slot), put = ["PEEK s", ...WAYS[this.way]].map(line => line.replace("s", slot));
    const again = fatal ? ["INT " + slot + " " + octal(fatal) + " 0"] : [];
    return joined([...linesBefore(this.lines, tick), ...put, ...again, ...linesBehind(this.lines, tick, this.turns)]);
  }

  /** What a disturbed run met and showed.
   * @param {Tick} tick
   * @param {string} transcript
   * @returns {Met} */
  met(tick, transcript, fatal = 0) {
    const told = toldOf(this.name, this.session(tick, fatal), transcript), put = told.slice(tick.line + tick.earlier.length);
    if (put[0].reason) {
      throw new Wrong(this.name + ": the job of slot " + octal(tick.slot) + " could not be looked at after tick " + octal(tick.number));
    }
    const {frame, left} = frameOf(peekOf(wordsOf(put[0]))), last = told[told.length - 1];
    const differs = last.reason ? "line '" + last.line.text + "' comes too early and is refused as " + last.reason :
      differenceOf(this.seen, seenOf(told));
    const cleared = this.way === "stop" && !put[2].reason ? number(stateOf(wordsOf(put[2])).pending1) % (FATAL + 1) : 0;
    return {tick, frame, left, differs, fatal: fatal || cleared, again: fatal > 0};
  }
}

/** Whether the last tick of a probe found a job that runs.
 * @param {string} transcript */
export function runsOn(transcript) { return !transcript.trimEnd().endsWith("-"); }
