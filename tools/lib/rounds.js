// Shared by the page and the commands: the rounds of a system of several people, one after the other,
// as long as one is due. What the program answers is shown once the lines of the round are kept.

import {Wrong} from "./words.js";

/** @typedef {import("./system.js").System} System */

/** What is around the rounds. `keep` adds the lines of a round to the session, and is done when nobody
 * can lose them; `write` gives them to the program, and `read` is the next line that it answers; `told`
 * takes all answers of a round, before `show` shows the output of a console; `done` ends a round;
 * `failed` says why there are no more.
 * @typedef {object} Around
 * @property {(lines: string[]) => Promise<void>} keep
 * @property {(lines: string[]) => void} write
 * @property {() => Promise<string>} read
 * @property {(answers: string[]) => void} told
 * @property {(console: number, text: string) => void} show
 * @property {() => void} done
 * @property {(problem: *) => void} failed */

const LONGEST_MS = 2 ** 31 - 1;          // that a timer can wait

/** The rounds of a system. They go on until they are held. */
export class Rounds {
  /** @param {System} system
   * @param {Around} around
   * @param {() => number} now milliseconds */
  constructor(system, around, now) {
    this.system = system;
    this.around = around;
    this.now = now;
    /** @type {ReturnType<typeof setTimeout> | undefined} */
    this.timer = undefined;
    this.isBusy = this.isHeld = false;
    /** @type {Promise<void>} */
    this.going = Promise.resolve();      // is done when no round goes on
  }

  /** Goes on with rounds, if one is due and none goes on; else it waits until one is due. */
  wake() {
    if (this.isBusy || this.isHeld) return;
    clearTimeout(this.timer);
    const due = this.system.due(this.now());
    if (due > 0) {
      if (due !== Infinity) this.timer = setTimeout(() => this.wake(), Math.min(due, LONGEST_MS));
      return;
    }
    this.isBusy = true;
    this.going = this.all().catch(problem => {
      this.hold();
      this.around.failed(problem);
    }).then(() => {
      this.isBusy = false;
      this.wake();
    });
  }

  /** No round follows the one that goes on. */
  hold() {
    this.isHeld = true;
    clearTimeout(this.timer);
  }

  /** Rounds follow again. */
  release() {
    this.isHeld = false;
    this.wake();
  }

  /** Rounds, until none is due. */
  async all() { while (!this.isHeld && this.system.due(this.now()) === 0) await this.round(); }

  /** One round: its lines are answered, and kept, before anything is shown. */
  async round() {
    const {system, around} = this, lines = system.lines(this.now()), answers = [], shown = [], kept = around.keep(lines);
    kept.catch(() => {});                // it is waited for below
    around.write(lines);
    for (let isLast = false; !isLast;) {
      const answer = await around.read();
      answers.push(answer);
      if (answer.startsWith("?")) throw new Wrong("the session is over: " + answer);
      const one = system.took(answer);
      if (one.text) shown.push(one);
      isLast = one.isLast;
    }
    around.told(answers);
    await kept;
    for (const {console, text} of shown) around.show(console, text);
    around.done();
  }
}
