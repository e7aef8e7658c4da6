// Shared by the page and the commands: somebody's seat at a console: keys go to the jobs and what they
// put out comes back, until a key stops the job.

import {caret, keyName} from "./keys.js";
import {symbolIn} from "./meaning.js";
import {peekOf, stateOf} from "./transcript.js";
import {Runner, holderOf, nextMove, ticksIn} from "./turns.js";
import {FATAL, PENDING, callName, isOn, number, octal, pcOf, sixbit} from "./words.js";

/** @typedef {import("./sitting.js").Sitting} Sitting */
/** @typedef {import("./turns.js").Piece} Piece */

/** What the words of the command choose. `bound`: in ticks; `hasClock`: the clock follows real time.
 * @typedef {{interrupt: number, bound: number, hasClock: boolean, slot: number | null}} Choices */

/** A person's terminal. `keys` waits for keys so many seconds, for ever if that is null: those before
 * the interrupt key, and whether that came. `check` throws if a signal asks to end.
 * @typedef {object} Screen
 * @property {boolean} hasStatus whether there is a status line
 * @property {boolean} isResized whether the window has another size
 * @property {(output: number[]) => void} show what a job put out
 * @property {(text: string) => void} say lines of the tool's own
 * @property {(text: string) => void} status shows the status line
 * @property {() => void} openStatus
 * @property {() => void} bell
 * @property {() => void} check
 * @property {() => Promise<boolean>} ready whether a key or a signal is there
 * @property {(seconds: number | null, interrupt: number) => Promise<[number[], boolean]>} keys */

const PATIENT = 4096;                    // ticks that jobs have for keys before more keys are taken
const BEAT = 0.1;                        // seconds between CLOCK lines, while a job computes
const AHEAD = 60;                        // seconds that are looked ahead for a job that waits
const PER_SECOND = 30;                   // of the clock
export const REST = "rest", BOUND = "bound", KEY = "key";      // why the jobs do not run on

/** Now, in seconds. */
function now() { return performance.now() / 1000; }

/** Real time, in thirtieths of a second, as far as it counts. */
export class Clock {
  constructor() {
    this.since = now();
    this.told = 0;
  }

  /** How many thirtieths have gone by that no CLOCK line has given yet. The caller gives them. */
  due() {
    const fresh = Math.floor((now() - this.since) * PER_SECOND) - this.told;
    this.told += fresh;
    return fresh;
  }

  /** In how many seconds so many thirtieths will have gone by since the last CLOCK line.
   * @param {number} thirtieths */
  until(thirtieths) { return Math.max(this.since + (this.told + thirtieths) / PER_SECOND - now(), 0) + 0.001; }

  /** What has gone by since the last CLOCK line does not count. */
  skip() {
    this.since = now();
    this.told = 0;
  }
}

/** A sitting with its screen. */
export class Seat {
  /** @param {Sitting} sitting
   * @param {Screen} screen
   * @param {Choices} choices */
  constructor(sitting, screen, choices) {
    this.sitting = sitting;
    this.screen = screen;
    this.choices = choices;
    /** @type {number | null} */
    this.slot = null;
    this.runner = new Runner(sitting, 0);
    this.clock = choices.hasClock ? new Clock() : null;
    this.names = "";
    this.told = "";                      // what was said last of a job that does not run
    this.guess = 0;                      // after how many thirtieths a job went on last
    this.lost = 0;                       // keys that came while 100 waited already
  }

  /** The seat is at the console of this job from now on.
   * @param {number | null} slot */
  async watch(slot) {
    this.slot = slot;
    this.names = this.told = "";
    const state = slot === null ? null : await this.sitting.state(slot);
    let console = this.runner.console;
    if (slot !== null && state) {
      this.names = sixbit(state.user) + " " + sixbit(state.job);
      if (state.console === "-") this.screen.say("The job of slot " + octal(slot) + " has no console; the terminal is console " + octal(console) + ".");
      else console = number(state.console);
    }
    this.runner = new Runner(this.sitting, console);
  }

  /** The terminal is the jobs' until the interrupt key comes or the job does not run: what is said of
   * that. */
  async attend() {
    if (this.clock) this.clock.skip();
    /** @type {number[]} */
    let keys = [];
    let come = KEY;
    for (;;) {
      if (this.passTime() || keys.length || come === KEY) {
        come = await this.runOn(keys.length ? PATIENT : 0);
        const stopped = await this.stopped();
        if (stopped) return stopped;
      }
      const [typed, isInterrupted] = await this.screen.keys(await this.timeout(come), this.choices.interrupt);
      keys = typed;
      if (keys.length) await this.type(keys);
      if (isInterrupted) return this.stop();
      if (this.screen.isResized) this.screen.openStatus();
    }
  }

  /** Types keys at the console.
   * @param {number[]} keys */
  async type(keys) {
    const dropped = await this.sitting.type(this.runner.console, keys);
    if (!dropped) return;
    this.lost += dropped;
    this.screen.bell();
  }

  /** Runs until all jobs wait, the bound is met or, when the jobs have had their time for the last keys,
   * a key comes: which one it was.
   * @param {number} patience */
  async runOn(patience) {
    await this.runner.wake();
    let ticks = 0;
    while (ticks < this.choices.bound) {
      const piece = await this.runner.piece();
      ticks += ticksIn(piece);
      this.screen.show(piece.output);
      this.screen.check();
      if (piece.isSettled) {
        await this.showRunning(true);
        return REST;
      }
      if (ticks >= patience && await this.screen.ready()) return KEY;
    }
    await this.showRunning(false);
    return BOUND;
  }

  /** Gives the clock the time that has gone by, if there is any. */
  passTime() {
    const fresh = this.clock ? this.clock.due() : 0;
    if (fresh > 0) this.sitting.clock(fresh);
    return fresh > 0;
  }

  /** How long to wait for a key: for ever, if nothing goes on without one.
   * @param {string} come
   * @returns {Promise<number | null>} */
  async timeout(come) {
    if (come === KEY) return 0;
    if (!this.clock) return null;
    if (come === BOUND) return BEAT;
    this.guess = await nextMove(this.runner, AHEAD * PER_SECOND, this.guess);
    return this.guess ? this.clock.until(this.guess) : AHEAD;
  }

  /** What is said of the job, if it was stopped by a fatal bit or is gone, or if no job runs at all; else
   * nothing. It is said once. */
  async stopped() {
    const {slot} = this, isNobody = this.runner.nobody;
    if (slot !== null && this.runner.runs(slot)) {
      this.told = "";
      return "";
    }
    const said = slot === null ? "" : await this.stoppedSaid(slot), told = said || (isNobody ? "No job runs." : "");
    if (told === this.told && !isNobody) return "";
    this.told = told;
    return told;
  }

  /** What is said of a job that was stopped by a fatal bit or is gone.
   * @param {number} slot */
  async stoppedSaid(slot) {
    const state = await this.sitting.state(slot), name = "The job of slot " + octal(slot);
    if (!state) return name + " is gone.";
    const fatal = state.run === "STOP" ? PENDING.filter(([bit]) => bit <= FATAL && isOn(number(state.pending1), bit)) : [];
    if (!fatal.length) return "";
    return name + " is stopped by " + fatal.map(([, bit, about]) => bit + ", " + about).join(" and ") + ". " + await this.nextInstruction();
  }

  /** Stops the job: what is said of that. */
  async stop() {
    if (this.slot === null || (await this.sitting.attempt("STOP " + octal(this.slot))).reason) return "There is no job to stop.";
    const name = keyName(this.choices.interrupt);
    return name + ": the job of slot " + octal(this.slot) + " is stopped. " + await this.nextInstruction();
  }

  /** The place at which the job goes on, by a copy that looks at it. */
  async nextInstruction() {
    const state = this.slot === null ? null : await this.sitting.state(this.slot);
    if (!state || this.slot === null) return "";
    const place = pcOf(state.pc), word = await this.sitting.listed(this.slot, number(place));
    return "It goes on at " + place + symbolIn(state) + ": " + (word || "no word is there");
  }

  /** Shows the status line: the place of the job, what is said of the console, and what a person may do.
   * All numbers are octal.
   * @param {string} frame
   * @param {string} console
   * @param {string} hint */
  showStatus(frame, console, hint) {
    const slot = this.slot === null ? "" : octal(this.slot);
    const parts = ["slot " + slot + " " + this.names, frame, console, "clock " + octal(this.sitting.known.clock), hint];
    if (this.lost) parts.push(octal(this.lost) + " keys lost");
    this.screen.status(" " + parts.join(" | "));
  }

  /** Shows the status line while the jobs have the terminal.
   * @param {boolean} isAtRest */
  async showRunning(isAtRest) {
    if (!this.screen.hasStatus || this.slot === null) return;
    const [frame, console] = await this.found(this.slot, isAtRest);
    this.showStatus(frame, console, isAtRest ? caret(this.choices.interrupt) + " stops" : "goes on after a key");
  }

  /** Shows the status line while the operator's prompt is there. */
  async showStopped() {
    if (!this.screen.hasStatus || this.slot === null) return;
    const [frame, console] = await this.found(this.slot, false);
    this.showStatus(frame, console, "go goes on");
  }

  /** How far the job is inside a call, and who holds the console, as far as a copy shows. If all jobs
   * wait, each job that waits for a byte or for room there gets one in this copy, and then a tick.
   * @param {number} slot
   * @param {boolean} isAtRest
   * @returns {Promise<[string, string]>} */
  async found(slot, isAtRest) {
    const slots = isAtRest ? [...this.runner.last.keys()].filter(one => this.runner.runs(one)).sort((one, other) => one - other) : [];
    const all = [...slots.filter(one => one !== slot), slot], {console} = this.runner;
    const lines = [...all.map(one => "PEEK " + octal(one)),
                   ...slots.flatMap(one => ["TYPE " + octal(console) + " 0", "TICK " + octal(one) + " 1"]),
                   ...all.map(one => "STATE " + octal(one))];
    const answers = (await this.sitting.look(lines)).map(answer => answer.split(" "));
    const peeks = new Map(answers.filter(words => words[0] === "P").map(words => [number(words[1]), peekOf(words)]));
    const states = new Map(answers.filter(words => words[0] === "S").map(words => [number(words[1]), stateOf(words)]));
    const letters = answers.filter(words => words[0] === "T").map(words => /** @type {[number, string]} */ ([number(words[1]), words[2].slice(-1)]));
    const tried = new Map(letters.filter(([one]) => isInTransfer(peeks.get(one))));
    const consoles = new Map([...states].map(([one, state]) => [one, state.console]));
    return [frameOf(peeks.get(slot), states.get(slot)), holderOf(consoles, tried, console, slot, this.sitting.hasLinks)];
  }
}

/** Whether a job waits in a call that moves bytes.
 * @param {ReturnType<typeof peekOf> | undefined} peek */
export function isInTransfer(peek) { return peek !== undefined && peek.state === "WAITING" && [".IOT", "SIOT"].includes(callName(peek.call)); }

/** How far a job is inside a call, in a few words.
 * @param {ReturnType<typeof peekOf> | undefined} peek
 * @param {Record<string, string> | undefined} state */
export function frameOf(peek, state) {
  if (!peek) return "no job";
  const stopped = state && state.run === "STOP" ? ", stopped" : "";
  if (peek.state === "USER") return "USER" + stopped;
  return peek.state + (peek.call === "-" ? "" : " in " + callName(peek.call)) + ", " + octal(peek.left) + " left" + stopped;
}
