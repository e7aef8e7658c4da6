// Shared by the page and the commands: a system of several people at its consoles, as lines of a session. A round has the lines of the
// clock, of the keys that came, a RUN, and the consoles that are drained. Nothing here needs a socket or a program: the lines of a round go
// out, and its answers come in.

import {Bucket, Desk, newRound, typeLine} from "./desk.js";
import {restingIn, slotsThatCompute} from "./resting.js";
import {turnOf} from "./turns.js";
import {asSixbit, number, octal, signed} from "./words.js";

/** @typedef {import("./turns.js").Turn} Turn */

export const CONSOLES = 8;
export const COMMAND = "HACTRN";         // the job name of a command job: Control-Z at its console interrupts it, and it never logs out
const SLEEP = asSixbit("SLEEP"), REALT = asSixbit("REALT");
const QUANTUM = 0o100;                   // ticks of a turn
const MOST_TURNS = 0o1000, MOST_TICKS = 0o1000;
const LARGEST = 3;                       // after so many rounds a job that computes has four TICK lines in each
const BURST = 64, KEY_BURST = 64;        // rounds at once: those that go on, and those that the keys of one console begin
const SECOND = 30;                       // the clock counts thirtieths of a second
const SWEEP_MS = 100;                    // a console that may have output is drained after so long
export const NO_SHOW = "DIR _";                 // a line that changes nothing, and whose answer ends a round without a DRAIN

/** The system, as its host knows it. Times are in milliseconds. */
export class System {
  /** @param {number} perSecond rounds that go on, and rounds of the keys of one console */
  constructor(perSecond = 15) {
    this.desks = Array.from({length: CONSOLES}, (_, console) => new Desk(console, new Bucket(KEY_BURST, perSecond)));
    this.rounds = new Bucket(BURST, perSecond);
    this.clock = 0;                      // of the session
    this.epoch = 0;                      // the time at which the clock was 0
    /** @type {Map<number, number>} */
    this.commands = new Map();           // console -> the slot of its command job
    /** @type {Map<number, number>} */
    this.consoles = new Map();           // slot of a command job -> its console
    /** @type {{console: number, isCommand: boolean}[]} */
    this.loads = [];                     // LOAD lines that are not answered yet
    this.hasSleep = this.hasAlarm = false;               // the lines have a word that names the call, so that a job may call it
    this.isSettled = false;              // nothing goes on until something comes
    this.turns = CONSOLES + 2;           // of the next RUN
    /** @type {number[]} */
    this.busy = [];                      // slots that did not wait in their last turn
    this.grown = 0;                      // for how many rounds there were such slots
    /** @type {Map<number, number>} */
    this.starred = new Map();            // slot -> the clock at its last step
    /** @type {Set<number>} */
    this.unseen = new Set();             // slots that did something since they were looked at
    /** @type {Map<number, number>} */
    this.sleepers = new Map();           // slot -> when its SLEEP ends
    this.swept = 0;                      // when all consoles that may have output were drained
    this.isFresh = true;                 // no job was looked at since the session began or was run again
    this.round = newRound();
  }

  /** Keeps in mind what a line of the session says.
   * @param {string} line */
  given(line) {
    const words = line.split(" ");
    if (words[0] === "CLOCK") this.clock += number(words[1]);
    else if (words[0] === "LOAD") this.loads.push({console: words[3] === "-" ? -1 : number(words[3]), isCommand: words[2] === COMMAND});
    else if (words[0].endsWith("/")) {
      this.hasSleep = this.hasSleep || line.includes(SLEEP);
      this.hasAlarm = this.hasAlarm || line.includes(REALT);
    }
  }

  /** The clock goes on from what it is.
   * @param {number} now */
  begin(now) { this.epoch = now - this.clock * 1000 / SECOND; }

  /** Somebody sits down: what is shown there at first.
   * @param {number} console */
  arrive(console) {
    const desk = this.desks[console];
    desk.isThere = desk.takes = desk.isHot = true;
    this.isSettled = false;
    return desk.last;
  }

  /** Somebody leaves. The keys that were not typed yet are gone.
   * @param {number} console */
  leave(console) {
    const desk = this.desks[console];
    desk.isThere = desk.takes = false;
    desk.keys = [];
  }

  /** Keys came.
   * @param {number} console
   * @param {number[]} keys */
  press(console, keys) { this.desks[console].keys.push(...keys); }

  /** The terminal takes output, or does not.
   * @param {number} console
   * @param {boolean} takes */
  flow(console, takes) {
    const desk = this.desks[console];
    if (takes && !desk.takes) {
      desk.isHot = true;
      this.isSettled = false;
    }
    desk.takes = takes;
  }

  /** The desks with something to type now.
   * @param {number} now */
  ready(now) {
    return this.desks.filter(desk => desk.isReady(this.commands.has(desk.console), this.isSettled) && desk.rounds.wait(now) === 0);
  }

  /** When a job that waits for the clock may go on; Infinity if none does. No line shows an alarm, so with alarms it is the next second.
   * @returns {number} */
  get waking() {
    const clock = Math.min(...this.sleepers.values(), this.hasAlarm ? this.clock + SECOND : Infinity);
    return this.epoch + clock * 1000 / SECOND;
  }

  /** In how many milliseconds the next round is due; Infinity if nothing is to be done until something comes.
   * @param {number} now */
  due(now) {
    if (this.isSettled && (this.unseen.size || this.desks.some(desk => desk.isShown && desk.isHot))) return 0;
    const waits = this.desks.filter(desk => desk.isReady(this.commands.has(desk.console), this.isSettled)).map(desk => desk.rounds.wait(now));
    waits.push(this.isSettled ? this.waking - now : this.rounds.wait(now));
    if (this.desks.some(desk => desk.mayHave && desk.isShown)) waits.push(this.swept + SWEEP_MS - now);
    return Math.max(0, Math.ceil(Math.min(...waits)));
  }

  /** The lines of the next round.
   * @param {number} now
   * @returns {string[]} */
  lines(now) {
    this.round = newRound();
    const looks = this.lookLines(), keys = this.keyLines(now);
    if (keys.length || now >= this.waking || this.desks.some(desk => desk.isShown && desk.isHot)) this.isSettled = false;
    this.round.hasRun = !this.isSettled;
    if (this.round.hasRun && !keys.length) this.rounds.take(now);
    const runs = this.round.hasRun ? [...this.busyLines(), "RUN " + octal(this.turns) + " " + octal(QUANTUM)] : [];
    const lines = [...looks, ...(this.round.hasRun ? this.clockLines(now) : []), ...keys, ...runs, ...this.drainLines(now)];
    for (const line of lines) this.given(line);
    return lines;
  }

  /** More ticks for the jobs that compute, in few lines: a RUN has a turn of each job that waits, also. */
  busyLines() {
    const times = 2 ** Math.max(0, this.grown - 1);
    return this.busy.flatMap(slot => new Array(times).fill("TICK " + octal(slot) + " " + octal(MOST_TICKS)));
  }

  /** The lines that look at jobs. All of them wait, so each is there. At first each is brought out of its call: then the word of a SLEEP is its
   * time, and PEEK will show it. */
  lookLines() {
    if (!this.isSettled) return [];
    const kind = this.isFresh ? "STATE " : "PEEK ", lines = [...this.unseen].map(slot => kind + octal(slot));
    this.unseen.clear();
    if (this.isFresh && lines.length) this.isSettled = false;
    this.isFresh = false;
    return lines;
  }

  /** The line that moves the clock, if it has to.
   * @param {number} now */
  clockLines(now) {
    const late = Math.floor((now - this.epoch) * SECOND / 1000) - this.clock;
    return late > 0 ? ["CLOCK " + octal(late)] : [];
  }

  /** The lines of keys.
   * @param {number} now */
  keyLines(now) {
    const lines = [];
    for (const desk of this.ready(now)) {
      const slot = this.commands.get(desk.console), {typed, isInterrupted} = desk.part(slot !== undefined);
      desk.rounds.take(now);
      desk.isHot = true;
      for (const keys of typed) {
        lines.push(typeLine(desk.console, keys));
        this.round.typed.push({desk, keys});
      }
      if (isInterrupted) lines.push("INT " + octal(slot || 0) + " 0 1");
    }
    return lines;
  }

  /** The lines that drain consoles, or one that ends the round without.
   * @param {number} now */
  drainLines(now) {
    const isSweep = now >= this.swept + SWEEP_MS;
    if (isSweep) this.swept = now;
    const desks = this.desks.filter(desk => desk.isShown && (desk.isHot || (isSweep && desk.mayHave)));
    for (const desk of desks) desk.isHot = desk.mayHave = false;
    this.round.drained = new Set(desks);
    this.round.last = Math.max(1, desks.length);
    return desks.length ? desks.map(desk => "DRAIN " + octal(desk.console) + " 100") : [NO_SHOW];
  }

  /** Takes an answer of the round: what it shows at a console, and whether it is the last.
   * @param {string} answer
   * @returns {{console: number, text: string, isLast: boolean}} */
  took(answer) {
    const words = answer.split(" "), found = {console: -1, text: "", isLast: false};
    switch (words[0]) {
      case "J": this.loaded(number(words[1])); break;
      case "T": this.round.turns.push(turnOf(answer)); break;
      case "Y": this.typed(number(words[2])); break;
      case "P": this.seen(number(words[1]), words); break;
      case "D": Object.assign(found, {console: number(words[1]), text: this.drained(number(words[1]), words.slice(2).map(number))});
    }
    if (words[0] === "D" || (words[0] === "R" && !this.round.drained.size)) this.round.last -= 1;
    found.isLast = this.round.last === 0;
    if (found.isLast) this.finish();
    return found;
  }

  /** Takes an answer to a line of the session before, which is run again: whether it shows something at a console.
   * @param {string} answer */
  recalled(answer) {
    const words = answer.split(" ");
    if (words[0] === "J") this.loaded(number(words[1]));
    if (words[0] === "D") this.desks[number(words[1])].show(words.slice(2).map(number));
    return words[0] === "D";
  }

  /** LOAD made a job.
   * @param {number} slot */
  loaded(slot) {
    const load = this.loads.shift();
    if (!load || !load.isCommand || load.console < 0 || this.commands.has(load.console)) return;
    this.commands.set(load.console, slot);
    this.consoles.set(slot, load.console);
  }

  /** So many keys of the next TYPE line were dropped.
   * @param {number} dropped */
  typed(dropped) {
    const one = this.round.typed.shift();
    if (!one) return;
    const {desk, keys} = one, {refused} = this.round;
    refused.set(desk, [...(refused.get(desk) || []), ...keys.slice(keys.length - dropped)]);
  }

  /** What PEEK shows of a job: when it goes on, if it sleeps. The word of a SLEEP that was not disturbed is still its time, from its step on.
   * @param {number} slot
   * @param {string[]} words */
  seen(slot, words) {
    if (words[2] !== "WAITING" || words[3] !== SLEEP || words[5] === "-") return;
    const time = signed(words[5]);
    this.sleepers.set(slot, time < 0 ? -time : (this.starred.get(slot) || 0) + time);
  }

  /** What a console has put out: its text.
   * @param {number} console
   * @param {number[]} output */
  drained(console, output) {
    const desk = this.desks[console];
    if (output.length) {
      desk.isHot = true;
      this.round.isDry = this.isSettled = false;
    }
    return desk.show(output);
  }

  /** The round is over. */
  finish() {
    for (const [desk, keys] of this.round.refused) desk.refused(keys);
    if (!this.round.hasRun) return;
    for (const turn of this.round.turns) this.turned(turn);
    for (const desk of this.desks) desk.left -= 1;
    const {turns, isDry} = this.round, slots = new Set(turns.map(turn => turn.slot)), resting = restingIn(turns);
    this.isSettled = resting !== null && isDry;
    if (resting) this.rest(resting);
    this.turns = Math.min(MOST_TURNS, slots.size + 2);           // a circle, and one more to see that it is closed
    this.busy = slotsThatCompute(turns);
    this.grown = this.busy.length ? Math.min(this.grown + 1, LARGEST) : 0;
  }

  /** All jobs that run wait: they alone can be looked at.
   * @param {Set<number>} slots */
  rest(slots) {
    for (const slot of this.sleepers.keys()) if (!slots.has(slot)) this.sleepers.delete(slot);
    this.unseen = new Set(this.isFresh && this.hasSleep ? slots : [...this.unseen].filter(slot => slots.has(slot)));
  }

  /** What a turn shows of a job.
   * @param {Turn} turn */
  turned({slot, letters}) {
    if (!/[^w]/.test(letters)) return;
    this.sleepers.delete(slot);
    if (this.hasSleep) this.unseen.add(slot);
    if (!letters.includes("*")) return;
    this.starred.set(slot, this.clock);
    const console = this.consoles.get(slot), {drained} = this.round;
    for (const desk of this.desks) {
      desk.hasMoved = true;
      if (drained.has(desk)) continue;
      if (desk.console === console) desk.isHot = true;
      else if (console === undefined) desk.mayHave = true;
    }
  }
}
