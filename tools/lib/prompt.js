// Shared by the page and the commands: the operator's prompt of somebody who sits at a console: lines of
// the session, and a few words of the tool's own.

import {WRITTEN, causeOf} from "./causes.js";
import {Editor} from "./editing.js";
import {meaningOf} from "./meaning.js";
import {CLOSES, JOB_LINES, LINES, Places, STATE_LINES, split, wordsIn} from "./session.js";
import {plainLine} from "./tails.js";
import {FARTHEST} from "./told.js";
import {wordsOf} from "./transcript.js";
import {turnOf} from "./turns.js";
import {Wrong, isOctal, number, octal} from "./words.js";

/** @typedef {import("./seat.js").Seat} Seat */
/** @typedef {import("./sitting.js").Keeper} Keeper */
/** @typedef {import("./transcript.js").Exchange} Exchange */
/** @typedef {Keeper & {path: string, transcriptPath: string}} Files */

export const PROMPT = "its> ";
export const GO = "go", QUIT = "quit", STAY = "stay";
const OWN = ["go", "slot", "step", "save", "quit", "help"];
const MOST_TICKS = 0o1000;               // of a step
const RADIX = "Numbers are octal; counts of ticks, steps, lines, words and bytes are decimal.";
const HELP = `\
Return       gives the job one tick, and shows where it is and its next instruction
step         the same up to the next * tick: an instruction, or a step of a call that others see
go           the job goes on, and the terminal is its console again
slot S       sits down at the console of the job in slot S
save FILE    keeps the session so far in FILE, and its transcript beside it
quit         ends the session; so does Control-D
help         shows this; help LINE says how that line is written
${RADIX}
All else is a line of the session, in capitals or not, as docs/SESSION.md has it. The job at which you sit
is meant if the slot is left out, and a number may be a symbol of the job or a sum, as exam LOOP+2 1:`;

/** The prompt. */
export class Operator {
  /** @param {Seat} seat
   * @param {(editor: Editor) => Promise<string | null>} edited a line that a person edits; null at the
   * end of the input
   * @param {(path: string) => Files} keep makes the files of a session */
  constructor(seat, edited, keep) {
    this.seat = seat;
    this.sitting = seat.sitting;
    this.screen = seat.screen;
    this.edited = edited;
    this.keep = keep;
    this.editor = new Editor(PROMPT, (before, word) => this.completed(before, word));
    this.made = 0;                       // the slot of the last LOAD
    this.isFirst = true;                 // whether the prompt has not come yet
  }

  /** The words that begin so: first words of a line, and after one the symbols of the job.
   * @param {string} before
   * @param {string} word */
  completed(before, word) {
    if (before.trim()) return word ? [...this.symbolsAt(this.seat.slot).keys()].filter(one => one.startsWith(word.toUpperCase())).sort() : [];
    return [...Object.keys(LINES).filter(one => !STATE_LINES.includes(one)).sort(), ...OWN].filter(one => one.startsWith(word.toUpperCase()) || one.startsWith(word)).map(one => one + " ");
  }

  /** The symbols of the job in a slot.
   * @param {number | null} slot
   * @returns {Map<string, number>} */
  symbolsAt(slot) { return slot === null ? new Map() : this.sitting.known.symbolsOf(slot).values; }

  /** Says why the prompt comes, and the first time how numbers are written. Obeys lines until the jobs go
   * on or the session is to end: whether they go on.
   * @param {string} said */
  async prompt(said) {
    if (said) this.screen.say(said);
    if (this.isFirst) this.screen.say(RADIX);
    this.isFirst = false;
    for (;;) {
      await this.seat.showStopped();
      const text = await this.edited(this.editor), done = text === null ? this.quit() : await this.obey(text);
      if (done !== STAY) return done === GO;
    }
  }

  /** Obeys a line: whether the prompt stays, the jobs go on or the session ends.
   * @param {string} text with one character for each byte */
  async obey(text) {
    const [first, ...words] = text.trim().split(/\s+/), isAlone = !words.length;
    if (isAlone && first === "go") return this.go();
    if (isAlone && ["quit", "END", "end"].includes(first)) return this.quit();
    if (!first && !this.sitting.block.length) await this.step(false);
    else if (isAlone && first === "step") await this.step(true);
    else if (first === "help") this.help(words);
    else if (first === "save") this.save(words);
    else if (first === "slot") await this.move(words);
    else await this.perform(text);
    return STAY;
  }

  /** Says lines.
   * @param {string[]} lines */
  say(lines) { for (const line of lines) this.screen.say(line); }

  /** A line as the program takes it: capitals, the slot at which the person sits if it is left out, and
   * numbers in the place of symbols.
   * @param {string} text */
  plain(text) {
    if (text.trimStart().startsWith(";")) return text;
    const upper = text.replace(/[a-z]/g, one => one.toUpperCase()), words = wordsIn(upper), [kind] = words, {slot} = this.seat;
    const takesSlot = JOB_LINES.includes(kind) || kind === "TICK", isOpen = this.sitting.block.length > 0;
    const isShort = takesSlot && slot !== null && !isOpen && words.length === LINES[kind][0] - 1;
    const whole = isShort ? [kind, octal(slot), ...words.slice(1)].join(" ") : upper;
    const line = Object.assign(new Places(), this.sitting.places).line(whole), {known} = this.sitting;
    /** @type {Map<string, number>[]} */
    const bySlot = [];
    for (const [one, symbols] of known.symbols) bySlot[one] = symbols.values;
    if (!takesSlot) bySlot[0] = this.symbolsAt(isOpen ? known.slot : slot);
    return plainLine("the session", line, bySlot);
  }

  /** A line of the session: what answers it and what that means, or why it is refused.
   * @param {string} text */
  async perform(text) {
    let plain = "";
    try {
      plain = this.plain(text);
    } catch (problem) {
      if (!(problem instanceof Wrong)) throw problem;
      return this.screen.say(problem.message);
    }
    if (plain.toUpperCase() !== text.toUpperCase()) this.screen.say("= ".padStart(PROMPT.length) + plain);
    const exchange = await this.sitting.attempt(plain);
    if (exchange.reason) return this.refused(exchange);
    this.say([...exchange.answer, ...meaningOf(exchange, this.sitting.known).map(one => "    " + one)]);
    if (exchange.line.kind === "LOAD") this.made = number(wordsOf(exchange)[1]);
    if (exchange.line.kind === "GO" && this.seat.slot === null) await this.seat.watch(this.made);
  }

  /** What was wrong with a line. The session is as it was.
   * @param {Exchange} exchange */
  refused(exchange) {
    const {column, text} = causeOf(exchange, this.sitting.known);
    if (0 < column && column <= FARTHEST) this.screen.say(" ".repeat(PROMPT.length + column - 1) + "^");
    this.screen.say("refused as " + exchange.reason + ": " + text);
  }

  /** The slot of the job at which the person sits; null if there is none or a block is open, and then
   * that is said. */
  slotHere() {
    if (this.sitting.block.length) {
      const kind = this.sitting.places.block;
      this.screen.say("The block of " + kind + " is open: end it by " + CLOSES[kind] + " first.");
      return null;
    }
    if (this.seat.slot === null) this.screen.say("There is no job yet: make one by LOAD, or sit down at one by slot S.");
    return this.seat.slot;
  }

  /** The job goes on, if there is one. */
  async go() {
    const slot = this.slotHere();
    if (slot === null) return STAY;
    const state = await this.sitting.state(slot);
    if (state && state.run === "STOP") await this.sitting.attempt("CONT " + octal(slot));
    return GO;
  }

  /** The session ends. */
  quit() {
    if (this.sitting.block.length) {
      this.screen.say("The block of " + this.sitting.places.block + " is not closed, and so it is no part of the session.");
    }
    return QUIT;
  }

  /** One tick of the job, or all up to the next * tick: what it did, the place of the job, and its next
   * instruction.
   * @param {boolean} isWhole */
  async step(isWhole) {
    const slot = this.slotHere();
    if (slot === null) return;
    const state = await this.sitting.state(slot);
    if (!state) return this.screen.say("There is no job in slot " + octal(slot) + ".");
    if (state.run === "STOP") await this.sitting.attempt("CONT " + octal(slot));
    const count = isWhole ? await this.ticksToStep(slot) : 1;
    const [, output] = await this.sitting.ticks(["TICK " + octal(slot) + " " + octal(count)], this.seat.runner.console);
    this.screen.show(output);
    this.screen.say(this.sitting.transcript[this.sitting.transcript.length - 2]);
    const peek = await this.sitting.attempt("PEEK " + octal(slot));
    if (peek.reason) return this.screen.say("The job is gone.");
    this.say([...peek.answer, ...meaningOf(peek, this.sitting.known).slice(0, -1).map(one => "    " + one),
              "    " + await this.seat.nextInstruction()]);
  }

  /** After how many ticks, by a copy, the job has had a * tick; or waits, or does not run.
   * @param {number} slot */
  async ticksToStep(slot) {
    const [answer] = await this.sitting.look(["TICK " + octal(slot) + " " + octal(MOST_TICKS)]), {letters} = turnOf(answer);
    const at = [...letters].findIndex(letter => letter !== ".");
    return at < 0 ? letters.length : at + 1;
  }

  /** What can be typed.
   * @param {string[]} words */
  help(words) {
    const one = (words[0] || "").toUpperCase();
    if (WRITTEN[one]) return this.screen.say(WRITTEN[one]);
    const later = this.sitting.version === 1 ? ["RO", "SYM", "RUN", "LIST"] : [];
    const lines = Object.keys(WRITTEN).filter(name => !["VERSION", "END", ...STATE_LINES, ...later].includes(name)).map(name => WRITTEN[name]);
    const rows = Array.from({length: Math.ceil(lines.length / 5)}, (_, at) => "    " + lines.slice(5 * at, 5 * at + 5).join(", "));
    this.say([...split(HELP), ...rows]);
  }

  /** Keeps the session so far.
   * @param {string[]} words */
  save(words) {
    if (words.length !== 1) return this.screen.say("It is written save FILE");
    try {
      const kept = this.keep(words[0]);
      kept.add(0, [...split(this.sitting.text), "END"]);
      kept.add(1, this.sitting.transcript);
      kept.close();
      this.screen.say(kept.path + " has the session so far, " + kept.transcriptPath + " its transcript.");
    } catch (problem) {
      if (!(problem instanceof Wrong)) throw problem;
      this.screen.say(problem.message);
    }
  }

  /** Sits down at another job.
   * @param {string[]} words */
  async move(words) {
    const slot = words.length === 1 && isOctal(words[0]) ? number(words[0]) : -1, most = this.sitting.version === 1 ? 0o77 : 0o137;
    if (slot < 0 || slot > most) return this.screen.say("It is written slot S, and a slot is 0 to " + octal(most) + ", in octal");
    if (this.sitting.block.length || !await this.sitting.state(slot)) return this.screen.say("There is no job in slot " + octal(slot) + ".");
    await this.seat.watch(slot);
    this.screen.say("The terminal is console " + octal(this.seat.runner.console) + ". " + await this.seat.nextInstruction());
  }
}
