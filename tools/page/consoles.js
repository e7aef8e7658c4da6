// The page: two consoles of one system, side by side in the Terminal tab. What is typed at either
// becomes rounds of one session, as by tools/timesharing (lib/system.js, lib/rounds.js). In each round
// the worker runs the session anew from its beginning.

import {Rounds} from "../lib/rounds.js";
import {joined, split} from "../lib/session.js";
import {System} from "../lib/system.js";
import {INTERRUPT} from "../lib/telnet.js";
import {Wrong, countOf, octal} from "../lib/words.js";
import {alertOf, byId, on, tried} from "./dom.js";
import {setSession} from "./editor.js";
import {keepLater, keepMore, kept} from "./keeping.js";
import {Screen} from "./screen.js";
import {act, examples, program} from "./state.js";
import {showTerminal} from "./terminal.js";
import {judge} from "./verify.js";

const NAME = "consoles.its";
const LEAVE = 0o4;                       // Control-D, by which one leaves TALK
const MOST_LINES = 50000;                // of a session that each round runs anew
const LONG = 3;                          // rounds in which a job computed

/** Now, in milliseconds. */
function now() { return performance.now(); }

/** A system that runs: its session so far, and the transcript as it was seen. Its rounds use it as
 * what is around them. */
class Running {
  constructor() {
    this.text = this.transcript = "";
    this.count = 0;                      // of the lines of the session
    this.isOpen = false;                 // the session so far was run
    /** @type {string[]} */
    this.lines = [];                     // of the round that goes on
    /** @type {Promise<string[]>} */
    this.coming = Promise.resolve([]);   // their answers
    /** @type {string[] | null} */
    this.answers = null;                 // those that are not read yet
    this.system = new System();
    this.rounds = new Rounds(this.system, this, now);
    this.rounds.hold();
  }

  /** Whether the session has as many lines as it may have. */
  get isFull() { return this.count >= MOST_LINES; }

  /** Begins with a session so far, which is run, or with a new system.
   * @param {string} text */
  async begin(text) {
    const texts = examples.filter(one => one.name.startsWith("system/")).map(one => [one.name, one.text]);
    this.text = text || (await program.ask("system", {texts}, "Assembling the system")).text;
    const {status, output} = await program.ask("command", {words: ["run"], input: this.text}, "Running the session so far");
    if (status) throw new Wrong("The session of the two consoles ends with status " + status + ": begin it anew.");
    const lines = split(this.text);
    for (const line of lines) this.system.given(line);
    for (const answer of split(output)) this.system.recalled(answer);
    this.count = lines.length;
    this.transcript = output;
    this.isOpen = true;
  }

  /** These are the lines of the round. They belong to the session once they are answered.
   * @param {string[]} lines */
  async keep(lines) { this.lines = lines; }

  /** Gives lines to the program.
   * @param {string[]} lines */
  write(lines) {
    this.answers = null;
    this.coming = program.ask("round", {text: this.text, lines, told: this.transcript.length}, "Running the jobs").then(({answers}) => answers);
  }

  /** The next answer. */
  async read() {
    this.answers = this.answers || await this.coming;
    const answer = this.answers.shift();
    if (answer === undefined) throw new Wrong("The program answers fewer lines than it was given.");
    return answer;
  }

  /** The round is answered.
   * @param {string[]} answers */
  told(answers) {
    this.text += joined(this.lines);
    this.transcript += joined(answers);
    this.count += this.lines.length;
  }

  /** Shows output of a console.
   * @param {number} console
   * @param {string} text */
  show(console, text) { if (seats.running === this) screens[console].show(text); }

  /** A round is over. */
  done() {
    if (this.isFull) this.rounds.hold();
    if (seats.running !== this) return;
    showState(this);
    if (this.system.isSettled || this.lines.some(line => /^(TYPE|INT) /.test(line))) keepLater();
  }

  /** There are no more rounds.
   * @param {*} problem */
  failed(problem) {
    if (seats.running !== this) return;
    close(this);
    alertOf(problem);
  }
}

/** What the page shows: two consoles or one, and whether the tab is shown; the system that runs or
 * begins, and its beginning; if there is none, the session so far. */
export const seats = {
  isTwo: false, isShown: false, running: /** @type {Running | null} */ (null),
  opening: /** @type {Promise<Running> | null} */ (null), text: ""};

const screens = [0, 1].map(console => new Screen("console-" + console, byte => press(console, byte)));

/** Says what a system does, if it is something else than before.
 * @param {Running} one */
function showState(one) {
  const box = byId("consoles-said"), {system} = one, said = one.isFull ? "The session is full: take it out, and begin anew." :
    system.isSettled ? "All jobs wait." : system.grown >= LONG ? "A job computes." : box.textContent;
  if (box.textContent !== said) box.textContent = said;
  byId("consoles-count").textContent = countOf(one.count, "line") + ", clock " + octal(system.clock);
}

/** A system begins with a session so far; without one it is a new system.
 * @param {string} text
 * @returns {Promise<Running>} */
function open(text) {
  const one = seats.running = new Running();
  return seats.opening = one.begin(text).then(() => {
    if (seats.running === one) {
      alertOf(null);
      screens.forEach((screen, console) => screen.put(one.system.arrive(console)));
      showState(one);
      go();
    }
    return one;
  }, problem => {
    close(one);
    throw problem;
  });
}

/** The system; if none runs, it goes on from the session so far. */
function opened() { return seats.opening || open(seats.text); }

/** A system does not run any more.
 * @param {Running} one */
function close(one) {
  one.rounds.hold();
  if (seats.running !== one) return;
  Object.assign(seats, {running: null, opening: null, text: one.text || seats.text});
  byId("consoles-said").textContent = "";
}

/** The system runs while it is shown. Its clock does not move meanwhile. */
function go() {
  const {isTwo, isShown, running} = seats;
  if (isTwo && isShown && !running) tried(opened);
  if (!running || !running.isOpen) return;
  const {system, rounds} = running;
  if (!isTwo || !isShown || running.isFull) rounds.hold();
  else if (rounds.isHeld) {
    system.begin(now());
    rounds.release();
  } else rounds.wake();
}

/** A key at a console.
 * @param {number} console
 * @param {number} byte */
function press(console, byte) {
  tried(async () => {
    (await opened()).system.press(console, [byte]);
    go();
  });
}

/** Shows two consoles or one.
 * @param {boolean} isTwo */
function choose(isTwo) {
  seats.isTwo = isTwo;
  byId("one-console").setAttribute("aria-pressed", !isTwo);
  byId("two-consoles").setAttribute("aria-pressed", isTwo);
  byId("terminal-one").hidden = isTwo;
  byId("terminal-two").hidden = !isTwo;
  go();
  if (!isTwo && seats.isShown) showTerminal();
  keepLater();
}

/** The tab is shown, or another one.
 * @param {boolean} isShown */
export function showSeats(isShown) {
  seats.isShown = isShown;
  choose(seats.isTwo);
}

/** Takes out the session so far, and its transcript as it was seen.
 * @param {(session: string, transcript: string) => void} take */
function takeOut(take) {
  tried(async () => {
    const {text, transcript} = await opened();
    take(text + "END\n", transcript);
  });
}

/** Lets the consoles act. */
export function wireSeats() {
  const {consoles} = kept();
  if (consoles) Object.assign(seats, {isTwo: consoles.isTwo, text: consoles.text});
  keepMore("consoles", () => ({isTwo: seats.isTwo, text: seats.running && seats.running.text || seats.text}));
  act.single = () => choose(false);
  on("one-console", "click", () => choose(false));
  on("two-consoles", "click", () => choose(true));
  on("consoles-begin", "click", () => {
    if (seats.running) close(seats.running);
    tried(() => open(""));
  });
  on("consoles-session", "click", () => takeOut(session => {
    act.choose("session");
    setSession(NAME, session);
  }));
  on("consoles-verify", "click", () => takeOut((session, transcript) => {
    act.choose("verify");
    judge(NAME, session, transcript);
  }));
  for (const {id} of screens) {
    const console = Number(id.slice(-1));
    on(id + "-stop", "click", () => press(console, INTERRUPT));
    on(id + "-leave", "click", () => press(console, LEAVE));
  }
}
