// Shared by the page and the commands: one console of a system of several people: the keys that wait to be typed there, the text that was
// shown there last, and how often its keys may begin a round; and what is known of the round that goes on.

import {INTERRUPT} from "./telnet.js";
import {visible} from "./keys.js";
import {octal} from "./words.js";

export const CONSOLE_BYTES = 64;         // so many bytes wait at a console (docs/SESSION.md, "TYPE and DRAIN: consoles")
const LINE_BYTES = 32;                   // a TYPE line has at most so many
const SCREEN = 2000;                     // characters of a console's last text
const LONGEST_WAIT = 32;                 // rounds between two tries of a console that is full

/** So many of a thing at once, and so many a second. */
export class Bucket {
  /** @param {number} most
   * @param {number} perSecond */
  constructor(most, perSecond) {
    this.most = this.left = most;
    this.perSecond = perSecond;
    this.since = 0;                      // milliseconds
  }

  /** Fills up until now.
   * @param {number} now */
  fill(now) {
    this.left = Math.min(this.most, this.left + (now - this.since) * this.perSecond / 1000);
    this.since = now;
  }

  /** In how many milliseconds there is one.
   * @param {number} now */
  wait(now) {
    this.fill(now);
    return this.left >= 1 ? 0 : Math.ceil((1 - this.left) * 1000 / this.perSecond);
  }

  /** Takes one if there is one.
   * @param {number} now */
  take(now) {
    const has = this.wait(now) === 0;
    if (has) this.left -= 1;
    return has;
  }
}

/** What is done at one console in a round: the keys of each TYPE line, and whether Control-Z comes after them.
 * @typedef {{typed: number[][], isInterrupted: boolean}} Part */

/** A console and the person who sits there. */
export class Desk {
  /** @param {number} console
   * @param {Bucket} rounds */
  constructor(console, rounds) {
    this.console = console;
    this.rounds = rounds;                // that its keys may begin
    /** @type {number[]} */
    this.keys = [];                      // that came and are not typed yet
    this.isThere = false;                // somebody sits there
    this.takes = false;                  // the terminal takes output now
    this.isHot = false;                  // output is likely: it is drained in the next round
    this.mayHave = false;                // output is possible: it is drained before long
    this.wait = 0;                       // rounds between two tries, while the console is full
    this.left = 0;                       // and until the next one
    this.hasMoved = false;               // a job has taken a step since the last try
    this.screen = "";                    // the text that was shown last
  }

  /** Whether its output can be shown. */
  get isShown() { return this.isThere && this.takes; }

  /** Whether the console took the keys of the last try. */
  get isOpen() { return this.wait === 0; }

  /** Whether there is something to type or Control-Z to press.
   * @param {boolean} hasCommand the console has a command job, for which Control-Z is
   * @param {boolean} isSettled nothing goes on, so that a full console is tried once more */
  isReady(hasCommand, isSettled) {
    if (!this.keys.length) return false;
    return this.isOpen || (this.hasMoved && (this.left <= 0 || isSettled)) || (hasCommand && this.keys.includes(INTERRUPT));
  }

  /** Takes the keys of the next round. Control-Z does not wait after keys that a full console does not take: they are dropped.
   * @param {boolean} hasCommand
   * @returns {Part} */
  part(hasCommand) {
    const at = hasCommand ? this.keys.indexOf(INTERRUPT) : -1;
    if (at >= 0 && (!this.isOpen || at === 0)) {
      this.keys.splice(0, at + 1);
      this.wait = this.left = 0;
      return {typed: [], isInterrupted: true};
    }
    const taken = this.keys.splice(0, Math.min(at < 0 ? this.keys.length : at, CONSOLE_BYTES)), typed = [];
    while (taken.length) typed.push(taken.splice(0, LINE_BYTES));
    return {typed, isInterrupted: false};
  }

  /** What the console did not take: it is tried again, more and more seldom.
   * @param {number[]} keys */
  refused(keys) {
    this.keys.unshift(...keys);
    this.wait = keys.length ? Math.min(LONGEST_WAIT, Math.max(1, 2 * this.wait)) : 0;
    this.left = this.wait;
    this.hasMoved = false;
  }

  /** The job has put something out: what is shown.
   * @param {number[]} output */
  show(output) {
    const text = visible(output);
    this.screen = (this.screen + text).slice(-SCREEN);
    return text;
  }

  /** What somebody sees who sits down here: the last text, from the beginning of a line. */
  get last() { return this.screen.length < SCREEN ? this.screen : this.screen.slice(this.screen.indexOf("\n") + 1); }
}

/** The TYPE line of some keys.
 * @param {number} console
 * @param {number[]} keys */
export function typeLine(console, keys) { return "TYPE " + octal(console) + " " + keys.map(octal).join(" "); }

/** What a round waits for, and what was done in it. `last`: how many answers of its last lines are still to come.
 * @typedef {{last: number, drained: Set<Desk>, typed: {desk: Desk, keys: number[]}[], refused: Map<Desk, number[]>, turns: import("./turns.js").Turn[],
 *            hasRun: boolean, isDry: boolean}} Round */

/** A round of which nothing is known.
 * @returns {Round} */
export function newRound() { return {last: 1, drained: new Set(), typed: [], refused: new Map(), turns: [], hasRun: false, isDry: true}; }
