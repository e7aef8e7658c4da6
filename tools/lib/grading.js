// Shared by the page and the commands: an assembly text is graded by the checks of a task. Each check is run once as it is, and once for each
// tick after which its job runs and each way to disturb the job there.

import {Assembled} from "./assembled.js";
import {checkOf} from "./checking.js";
import {linesBefore, linesBehind, ticksOf, turnsByLine} from "./cutting.js";
import {atLine, joined, linesOf, split} from "./session.js";
import {imageLines, plainTail} from "./tails.js";
import {refusal, refusedSaid, toldLines} from "./told.js";
import {stateOf, toldOf, wordsOf} from "./transcript.js";
import {differs} from "./wanted.js";
import {whereabouts} from "./whereabouts.js";
import {FATAL, Wrong, countOf, counted, number, octal} from "./words.js";

/** @typedef {import("./checking.js").Check} Check */
/** @typedef {import("./checking.js").Want} Want */
/** @typedef {import("./checking.js").Way} Way */
/** @typedef {import("./cutting.js").Tick} Tick */
/** @typedef {import("./transcript.js").Exchange} Exchange */
/** @typedef {import("./whereabouts.js").Run} Run */

/** What is found of one check: `said` is why it fails, and `session` the session that shows it, both nothing if it passes.
 * @typedef {{name: string, file: string, isPublic: boolean, passed: boolean, said: string, session: string}} Verdict */

/** A task: its checks, and the texts of the other jobs by their names.
 * @typedef {{checks: Check[], texts: Map<string, string>}} Task */

/** The files of a task, each as its name and its text: the public checks, the hidden ones, and the texts of other jobs.
 * @typedef {{checks: [string, string][], hidden: [string, string][], texts: [string, string][]}} Files */

/** A difference: the line of the session that shows it, and the words for it.
 * @typedef {{line: number, want: Want, said: string}} Difference */

export const MOST_LINES = 5000;          // of a text that is graded
export const ASSEMBLES = "The text is assembled";
const MOST_TICKS = 4096;                 // of a check that disturbs

/** A task from its files.
 * @param {Files} files
 * @returns {Task} */
export function taskFrom({checks, hidden, texts}) {
  const own = checks.map(([file, text]) => checkOf(file, text, true));
  return {checks: [...own, ...hidden.map(([file, text]) => checkOf(file, text, false))], texts: new Map(texts)};
}

/** A text with its image.
 * @param {Run} run
 * @param {string} text */
function assembled(run, text) { return new Assembled(text, run("asm", text)); }

/** Why a text is not assembled; nothing if it is.
 * @param {Run} run
 * @param {string} text
 * @returns {string} */
export function notAssembled(run, text) {
  const count = split(text).length;
  if (!text.trim()) return "the text is empty";
  if (count > MOST_LINES) return "the text has " + countOf(count, "line") + ", and one that is graded may have " + counted(MOST_LINES);
  const {refused} = assembled(run, text);
  return refused ? refusedSaid(refused.line, refusal(refused.line, refused.reason, refused.cause)) : "";
}

/** A text in a check: the session, and what its runs show. */
class Graded {
  /** @param {Run} run
   * @param {Check} check
   * @param {Task} task
   * @param {string} text */
  constructor(run, check, task, text) {
    this.run = run;
    this.check = check;
    const made = check.jobs.map(name => this.job(task, name, text));
    this.symbols = made.map(one => one.symbols);
    this.head = ["VERSION 2", ...made.flatMap(imageLines)];
    this.tail = linesOf(check.tail).filter(line => !line.ended);
    this.lines = [...this.head, ...plainTail(check.file, check.tail, made)];
  }

  /** The image of one of the jobs.
   * @param {Task} task
   * @param {string} name
   * @param {string} text of the job that is graded */
  job(task, name, text) {
    const own = name === "*" ? text : task.texts.get(name);
    if (own === undefined) throw new Wrong(this.check.file + ": there is no text " + name);
    const made = assembled(this.run, own);
    if (made.refused) throw new Wrong(this.check.file + ": the text " + name + " is refused");
    return made;
  }

  /** What a session shows.
   * @param {string[]} lines */
  shown(lines) {
    const session = joined(lines);
    return toldOf(this.check.file, session, this.run("run", session));
  }

  /** The first difference of a run whose lines after the line `from` come `later` than in the check, by so many lines. What the line `cut` has to
   * show of its last tick is passed over, because the job is late there.
   * @param {Exchange[]} told
   * @returns {Difference | null} */
  difference(told, from = Infinity, later = 0, cut = 0) {
    const last = told[told.length - 1], place = (/** @type {number} */ line) => line + this.head.length + (line + this.head.length > from ? later : 0);
    for (const want of this.check.wants.filter(one => one.line + this.head.length !== cut)) {
      const line = place(want.line), exchange = told[line - 1];
      if (last.reason && last.line.number <= line) return this.refused(told, want);
      if (!exchange) throw new Wrong(this.check.file + ", " + atLine(want.at) + ": this is after END");
      const slot = exchange.line.kind === "STATE" ? number(exchange.line.words[1]) : 0;
      const said = differs(exchange, want, this.tail[want.line - 1].text, this.symbols[slot] || new Map());
      if (said) return {line, want, said};
    }
    return last.reason ? this.refused(told, {line: last.line.number - this.head.length, at: 0, text: "", help: ""}) : null;
  }

  /** The last line, which is refused.
   * @param {Exchange[]} told
   * @param {Want} want the next one
   * @returns {Difference} */
  refused(told, want) {
    const {line, reason} = told[told.length - 1], found = toldLines(this.check.file, told).pop(), why = found && found.refused;
    return {line: line.number, want, said: "'" + line.text.trim() + "' is refused as " + reason + (why ? ": " + why.cause : "")};
  }

  /** A difference with its place in the check, what the job is doing, and what helps.
   * @param {string[]} lines of the session
   * @param {Difference} one
   * @param {number} slot */
  explained(lines, {line, want, said}, slot) {
    const job = whereabouts(this.run, lines.slice(0, line - 1), slot, this.symbols[slot] || []);
    return said + " (line " + want.line + " of " + this.check.file + "). The job: " + job + "." + (want.help ? " " + want.help : "");
  }

  /** The ticks after which one of the slots has a job that runs, since the next tick of the slot is none of a stopped job.
   * @param {Exchange[]} told */
  ticks(told) {
    /** @type {Map<number, string>} */
    const next = new Map(), ticks = [...ticksOf(told)].reverse().filter(tick => {
      const after = next.get(tick.slot);
      next.set(tick.slot, tick.letter);
      return after !== undefined && after !== "-" && this.check.slots.includes(tick.slot);
    });
    if (ticks.length > MOST_TICKS) {
      throw new Wrong(this.check.file + ": " + countOf(ticks.length, "tick") + " would be disturbed, and " + counted(MOST_TICKS) + " may be");
    }
    return ticks.reverse();
  }

  /** The lines that are put after a tick.
   * @param {Tick} tick
   * @param {Way} way
   * @param {number} fatal bits that are set again */
  put(tick, way, fatal) {
    const slot = octal(tick.slot), own = way.lines.map(line => line.replace(/\bs\b/, slot));
    return [...own, ...(fatal ? ["INT " + slot + " " + octal(fatal) + " 0"] : [])];
  }

  /** What is wrong after the job is disturbed after a tick; nothing if nothing is.
   * @param {Tick} tick
   * @param {Way} way
   * @param {Map<number, string[]>} turns
   * @returns {{said: string, lines: string[]} | null} */
  disturbed(tick, way, turns, fatal = 0) {
    const before = linesBefore(this.lines, tick), lines = [...before, ...this.put(tick, way, fatal), ...linesBehind(this.lines, tick, turns)];
    const told = this.shown(lines), at = before.length, isInside = tick.of > tick.place;
    const one = this.difference(told, isInside ? tick.line - 1 : tick.line, lines.length - this.lines.length, tick.line);
    if (!one) return null;
    const state = told.slice(at, at + way.lines.length).find(({line, reason}) => line.kind === "STATE" && !reason);
    const cleared = way.lines.some(line => line.startsWith("CONT")) && state ? number(stateOf(wordsOf(state)).pending1) % (FATAL + 1) : 0;
    if (cleared && !fatal) return this.disturbed(tick, way, turns, cleared);
    const met = whereabouts(this.run, before, tick.slot, this.symbols[tick.slot] || []);
    return {lines, said: "disturbed by " + way.name.replace(/\bs\b/, octal(tick.slot)) + " after tick " + tick.number + " (octal " +
      octal(tick.number) + ", line " + (tick.line - this.head.length) + "), when " + met + ": " + this.explained(lines, one, tick.slot)};
  }

  /** What is wrong; nothing if nothing is.
   * @returns {{said: string, lines: string[]} | null} */
  wrong() {
    const told = this.shown(this.lines), one = this.difference(told);
    if (one) return {said: this.explained(this.lines, one, this.check.slots[0]), lines: this.lines};
    const turns = turnsByLine(told), ticks = this.check.ways.length ? this.ticks(told) : [];
    for (const way of this.check.ways) {
      for (const tick of ticks) {
        const found = this.disturbed(tick, way, turns);
        if (found) return found;
      }
    }
    return null;
  }
}

/** What a check finds of a text that is assembled.
 * @param {Run} run
 * @param {Check} check
 * @param {Task} task
 * @param {string} text
 * @returns {Verdict} */
export function verdictOf(run, check, task, text) {
  const {name, file, isPublic} = check;
  try {
    const found = new Graded(run, check, task, text).wrong();
    return {name, file, isPublic, passed: !found, said: found ? found.said : "", session: found ? joined(found.lines) : ""};
  } catch (problem) {
    if (!(problem instanceof Wrong)) throw problem;
    return {name, file, isPublic, passed: false, said: problem.message, session: ""};
  }
}

/** What the checks of a task find of a text, each when somebody asks for it.
 * @param {Run} run
 * @param {Task} task
 * @param {string} text
 * @returns {Generator<Verdict>} */
export function* graded(run, task, text) {
  const why = notAssembled(run, text);
  yield {name: ASSEMBLES, file: "", isPublic: true, passed: !why, said: why, session: ""};
  for (const check of task.checks) {
    if (!why) yield verdictOf(run, check, task, text);
    else yield {name: check.name, file: check.file, isPublic: check.isPublic, passed: false, said: "not run, because the text is not assembled", session: ""};
  }
}

/** What is found, as a line for a reader.
 * @param {Verdict} verdict */
export function verdictLine({name, passed, said}) { return (passed ? "PASS  " : "FAIL  ") + name + (said ? ": " + said : ""); }
