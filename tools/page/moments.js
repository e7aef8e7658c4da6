// The page: which jobs there are at each moment of a session, and what PEEK shows.
//
// The session runs once as it is, and once cut into single ticks, with a PEEK of every job at each moment. PEEK disturbs nothing, so all
// else has to come out the same. No line shows which jobs there are. To find out, a copy ends at each call that may have changed that.

import {atLine, joined, linesOf} from "../lib/session.js";
import {Transcript, exchanges, peekOf, unrolled, wordsOf} from "../lib/transcript.js";
import {Wrong, asSixbit, countOf, counted, octal} from "../lib/words.js";
import {answersOf, consolesOf, momentsOf, sorted} from "./outline.js";

/** @typedef {import("../lib/transcript.js").Exchange} Exchange */
/** @typedef {import("./outline.js").Moment} Moment */

/** Runs a session: its status and its transcript.
 * @typedef {(session: string) => {status: number, transcript: string}} Run */

const MOST_LINES = 500000;               // of the session that is cut into single ticks
const SLOTS = 96;

/** The moments of one session, which a reader steps through. */
export class Moments {
  /** @param {Run} run
   * @param {string} name
   * @param {Exchange[]} told
   * @param {(said: string) => void} [progress] */
  constructor(run, name, told, progress = () => {}) {
    this.run = run;
    this.name = name;
    this.progress = progress;
    this.told = unrolled(told);
    const {texts, moments} = momentsOf(this.told);
    this.texts = texts;
    this.moments = moments;
    this.consoles = consolesOf(this.told);
    this.slots = told[0].line.version === 2 ? SLOTS : 64;
    /** @type {Map<number, number[]>} */
    this.gone = new Map();               // moment -> slots whose jobs a call removed there
    /** @type {Map<number, number>} */
    this.come = new Map();               // moment -> the slot in which a call made a job
    this.asked = 1;                      // OPENs before this moment have been looked at
    this.cut();
  }

  /** The slots with a job at each moment.
   * @returns {number[][]} */
  standing() {
    /** @type {Set<number>} */
    const slots = new Set();
    return this.moments.map((moment, at) => {
      for (const slot of [...moment.made, this.come.get(at)]) if (slot !== undefined) slots.add(slot);
      for (const slot of this.gone.get(at) || []) slots.delete(slot);
      return sorted(slots);
    });
  }

  /** The lines of the cut session; and for each whose it is: a moment and a slot, or -1 if it is no PEEK.
   * @returns {[string[], [number, number][]]} */
  script() {
    /** @type {string[]} */
    const lines = [];
    /** @type {[number, number][]} */
    const whose = [];
    this.standing().forEach((slots, at) => {
      const moment = this.moments[at], own = moment.refused ? this.lastLines() :
        moment.letter ? ["TICK " + octal(moment.slot || 0) + " 1"] : moment.now;
      for (const line of own) { lines.push(line); whose.push([at, -1]); }
      for (const slot of moment.refused ? [] : slots) { lines.push("PEEK " + octal(slot)); whose.push([at, slot]); }
    });
    if (lines.length > MOST_LINES) {
      throw new Wrong("cut into single ticks with a PEEK of each job, the session has " + countOf(lines.length, "line") + ", and may have " +
                      counted(MOST_LINES) + ": step through fewer lines, or let TICK and RUN lines make fewer ticks");
    }
    return [lines, whose];
  }

  /** The lines from the last moment to the one that is refused. */
  lastLines() {
    const since = this.moments[this.moments.length - 2].line;
    return this.told.filter(({line, reason}) => line.number > since && (line.kind || reason) && !line.ended).map(({line}) => line.text);
  }

  /** Fills in what PEEK shows at each moment, and finds out which jobs there are. */
  cut() {
    for (;;) {
      const [lines, whose] = this.script(), text = joined(lines), outcome = this.run(text);
      const told = exchanges(this.name + " cut into single ticks", linesOf(text), new Transcript("its transcript", outcome.transcript));
      const last = told[told.length - 1], [at, slot] = whose[last.line.number - 1] || [0, -1];
      if (last.reason === "NOJOB" && last.line.kind === "PEEK" && slot >= 0) {
        this.gone.set(at, [...(this.gone.get(at) || []), slot]);
        this.progress("finding out which jobs there are");
        continue;
      }
      if (told.length < whose.length) throw this.differs();
      this.fill(told, whose);
      if (!this.findMade()) {
        this.compare(told, whose);
        return;
      }
    }
  }

  /** Fills in what PEEK shows.
   * @param {Exchange[]} told
   * @param {[number, number][]} whose */
  fill(told, whose) {
    for (const moment of this.moments) moment.jobs = new Map();
    whose.forEach(([at, slot], index) => { if (slot >= 0) this.moments[at].jobs.set(slot, peekOf(wordsOf(told[index]))); });
    const last = this.moments.length - 1;
    if (this.moments[last].refused) this.moments[last].jobs = this.moments[last - 1].jobs;
  }

  /** The call in which the job that was ticked was before a step of the machine; "" if there is none.
   * @param {number} at */
  steppedCall(at) {
    const {letter, slot} = this.moments[at], peek = letter === "*" && slot !== null && this.moments[at - 1].jobs.get(slot);
    return peek ? peek.call : "";
  }

  /** Finds the next OPEN that made a job, in the least free slot, by copies that end there. Whether there is one. */
  findMade() {
    const standing = this.standing(), open = asSixbit("OPEN");
    for (let at = this.asked; at < this.moments.length; at += 1) {
      if (this.steppedCall(at) !== open || standing[at].length >= this.slots) continue;
      const slot = this.freeSlot(standing[at]);
      if (this.run(joined([...this.linesUpTo(at), "PEEK " + octal(slot)])).status === 0) {
        this.come.set(at, slot);
        this.asked = at + 1;
        return true;
      }
    }
    this.asked = this.moments.length;
    return false;
  }

  /** The least slot without a job.
   * @param {number[]} slots those with one */
  freeSlot(slots) {
    for (let slot = 0; ; slot += 1) if (!slots.includes(slot)) return slot;
  }

  /** All lines but the PEEKs that were put in have to come out as in the session that is not cut.
   * @param {Exchange[]} told
   * @param {[number, number][]} whose */
  compare(told, whose) {
    const cut = told.filter(({line, reason}, index) => (whose[index] || [0, -1])[1] < 0 && (line.kind || reason));
    if (joined(answersOf(cut)) !== joined(answersOf(this.told))) throw this.differs();
  }

  differs() { return new Wrong(this.name + ": cut into single ticks with PEEKs, it does not come out the same"); }

  /** The line of a moment, for a complaint.
   * @param {number} at */
  placeOf(at) { return this.name + ", " + atLine(this.moments[at].line); }

  /** The lines of the session up to a moment.
   * @param {number} at */
  linesUpTo(at) {
    const moment = this.moments[at];
    return [...this.texts.slice(0, moment.since), ...moment.now];
  }

  /** What the page has to know of all moments at once: of each its line, slot and letter.
   * @returns {[number, string, string][]} */
  outline() { return this.moments.map(({line, slot, letter}) => [line, slot === null ? "" : octal(slot), letter]); }
}
