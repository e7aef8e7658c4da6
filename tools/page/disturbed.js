// The page: a session that is disturbed after each of its ticks, some ticks at a time, so that the page can show how far that is.

import {ALL} from "../lib/cutting.js";
import {Disturbance, runsOn} from "../lib/disturbing.js";

/** @typedef {import("../lib/cutting.js").Tick} Tick */
/** @typedef {import("../lib/engine.js").Engine} Engine */

/** What a disturbed run showed: the number of its tick, the frame that the job was met in, how many steps brought it to user mode, and what
 * differs from the undisturbed run, nothing if it is the same. `runs`: whether a job runs there at all.
 * @typedef {{tick: number, runs: boolean, frame: string, left: number, differs: string}} Cell */

/** The disturbed runs of a session. */
export class Disturbed {
  /** @param {Engine} engine
   * @param {string} name
   * @param {string} session
   * @param {string} way
   * @param {number} settle */
  constructor(engine, name, session, way, settle) {
    this.run = (/** @type {string} */ text) => engine.run(text).transcript;
    this.work = new Disturbance(name, session, this.run(session), way, settle, ALL);
    this.work.take(this.run(this.work.plain));
    this.done = 0;
  }

  /** The ticks that are still to be disturbed. */
  get left() { return this.work.ticks.length - this.done; }

  /** The next runs, for so many milliseconds.
   * @param {number} time
   * @returns {Cell[]} */
  some(time) {
    const until = performance.now() + time, cells = [];
    while (this.left && performance.now() < until) {
      cells.push(this.cell(this.work.ticks[this.done]));
      this.done += 1;
    }
    return cells;
  }

  /** The run that is disturbed after a tick. If it differs because CONT cleared fatal bits, these are set again.
   * @param {Tick} tick
   * @returns {Cell} */
  cell(tick) {
    const {work} = this;
    if (!tick.next && !runsOn(this.run(work.probe(tick)))) return {tick: tick.number, runs: false, frame: "", left: 0, differs: ""};
    const met = work.met(tick, this.run(work.session(tick)));
    const {frame, left, differs} = met.differs && met.fatal ? work.met(tick, this.run(work.session(tick, met.fatal)), met.fatal) : met;
    return {tick: tick.number, runs: true, frame, left, differs};
  }
}
