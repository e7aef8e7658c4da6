// Shared by the page and the commands: a session that grows while somebody sits at it. A living program
// answers each line before the next one is written. A line that may be refused is tried on a copy
// first: the session so far with this line, run from its start. What was done is kept in two texts at
// every moment: the session and its transcript.

import {meaningOf} from "./meaning.js";
import {Known} from "./readings.js";
import {Places, asVersion2, atLine, joined, kindOf, linesOf, split, wordsIn} from "./session.js";
import {Transcript, exchanges, stateOf} from "./transcript.js";
import {turnOf} from "./turns.js";
import {Wrong, asSixbit, number, octal} from "./words.js";

/** @typedef {import("./transcript.js").Exchange} Exchange */
/** @typedef {import("./session.js").Line} Line */
/** @typedef {import("./turns.js").Turn} Turn */

/** What runs sessions. `write` and `read`: lines of the living one, and the next line that answers;
 * `end` ends it, and gives the lines that were still to come and its status; `copy` runs another
 * session from its start.
 * @typedef {object} Host
 * @property {(texts: string[]) => void} write
 * @property {() => Promise<string>} read
 * @property {() => Promise<[string[], number]>} end
 * @property {(text: string) => Promise<{output: string, problem: string}>} copy */

/** What keeps the session (0) and its transcript (1): lines are added at once.
 * @typedef {{add: (which: number, lines: string[]) => void, close: () => void}} Keeper */

/** The lines that a session begins with: none of them is refused, and they open no block. `answers`:
 * how many lines of the transcript answer them.
 * @typedef {{text: string, told: Exchange[], answers: number}} Start */

const MOST = 0o4000000 - 0o10000;        // lines of a session that is still added to
const QUIET = ["", "TICK", "RUN", "TYPE", "DRAIN"];      // lines that later ones need not have in mind
const LNK = asSixbit("LNK");             // the device of links

/** The session cannot go on, with one line that says why. */
export class Over extends Error {}

/** A line with its answer, and no other lines in view.
 * @param {Line} line
 * @param {string[]} [answer]
 * @param {string} [reason]
 * @returns {Exchange} */
export function alone(line, answer = [], reason = "") { return {line, answer, reason, at: 0}; }

/** The lines that a session begins with, by a run of these lines alone.
 * @param {Host["copy"]} copy
 * @param {string} name
 * @param {string} text
 * @returns {Promise<Start>} */
export async function startOf(copy, name, text) {
  const {output, problem} = await copy(text);
  if (problem) throw new Wrong(name + ": " + problem);
  const told = exchanges(name, linesOf(text), new Transcript("its transcript", output)), refused = told.find(one => one.reason);
  if (refused) throw new Wrong(name + ": " + atLine(refused.line.number) + " is refused as " + refused.reason + "; tools/explain says why");
  return {text, told, answers: split(output).length};
}

/** The lines of a session before its END, and whether there is one.
 * @param {string} text
 * @returns {[string, boolean]} */
export function withoutEnd(text) {
  const lines = split(text), at = lines.findIndex(line => kindOf(wordsIn(line)) === "END");
  return [joined(at < 0 ? lines : lines.slice(0, at)), at >= 0];
}

/** The session so far, and the program that runs it. */
export class Sitting {
  /** @param {Host} host
   * @param {Keeper} kept */
  constructor(host, kept) {
    this.host = host;
    this.kept = kept;
    this.text = "";                      // the lines so far
    /** @type {string[]} */
    this.transcript = [];
    this.places = new Places();
    this.known = new Known();
    this.lines = 0;                      // how many lines the program has got
    /** @type {string[]} */
    this.block = [];                     // of a block that is not closed yet; the program has not got them
    this.answered = 0;                   // how many lines of the transcript answer them
  }

  /** The version of the session text. */
  get version() { return this.places.version; }

  /** Whether the lines so far name the device of links, so that jobs may wait at one. */
  get hasLinks() { return this.text.includes(LNK); }

  /** Gives lines to the program. They are kept first.
   * @param {string[]} texts
   * @param {number} [most] */
  give(texts, most = MOST) {
    this.lines += texts.length;
    if (this.lines > most) throw new Over("the session has as many lines as it may have");
    this.kept.add(0, texts);
    this.text += joined(texts);
    this.host.write(texts);
  }

  /** The next lines of the transcript.
   * @param {number} count */
  async answers(count) { return count ? this.answersUntil((_, soFar) => soFar === count) : []; }

  /** The next lines of the transcript, up to one that is the last.
   * @param {(line: string, soFar: number) => boolean} isLast */
  async answersUntil(isLast) {
    /** @type {string[]} */
    const lines = [];
    while (!lines.length || !isLast(lines[lines.length - 1], lines.length)) lines.push(await this.host.read());
    for (const line of lines) this.transcript.push(line);
    this.kept.add(1, lines);
    return lines;
  }

  /** The lines that the session begins with.
   * @param {Start} start */
  async begin(start) {
    for (const one of start.told) this.learn(one);
    const texts = split(start.text);
    for (const one of texts) this.places.line(one);
    this.give(texts);
    await this.answers(start.answers);
  }

  /** What a line that was performed means. What it shows is kept in mind.
   * @param {Exchange} exchange */
  learn(exchange) { return QUIET.includes(exchange.line.kind) ? [] : meaningOf(exchange, this.known); }

  /** What a copy of the session answers to these lines, which are no part of it: up to the first that
   * is refused.
   * @param {string[]} texts */
  async look(texts) {
    const {output, problem} = await this.host.copy(this.text + joined(texts));
    if (problem) throw new Over(problem);
    const answers = split(output);
    if (this.transcript.some((line, at) => line !== answers[at])) throw new Over("a copy of the session is not answered as the session was");
    return answers.slice(this.transcript.length);
  }

  /** What STATE would show of a job, by the names of the registers; null if there is no job.
   * @param {number} slot */
  async state(slot) {
    const words = (await this.look(["STATE " + octal(slot)]))[0].split(" ");
    return words[0] === "S" ? stateOf(words) : null;
  }

  /** A word of a job as the assembler writes it, by a copy in version 2 of the session text; nothing if
   * no word is there.
   * @param {number} slot
   * @param {number} address */
  async listed(slot, address) {
    const text = this.version === 1 ? joined(asVersion2(split(this.text))) : this.text;
    const {output} = await this.host.copy(text + "LIST " + octal(slot) + " " + octal(address) + " 1\n");
    const last = split(output).pop() || "";
    return last.startsWith("L ") ? last.split(" ").slice(3).join(" ") : "";
  }

  /** Tries a line on a copy. If it is refused there, the exchange has the reason and the session is as
   * it was. Else the line is performed, or waits for the end of its block.
   * @param {string} text
   * @returns {Promise<Exchange>} */
  async attempt(text) {
    const places = Object.assign(new Places(), this.places), line = places.line(text), answers = await this.look([...this.block, text]);
    const last = answers[answers.length - 1] || "", refused = last.startsWith("? ") ? last.split(" ") : [];
    if (refused.length && !(refused[2] === "CUT" && number(refused[1]) > line.number)) return alone(line, [last], refused[2]);
    const had = this.answered;
    this.places = places;
    if (places.block) {
      answers.pop();                     // the answer to the open block is CUT
      this.block.push(text);
      this.answered = answers.length;
      return alone(line, answers.slice(had));
    }
    this.give([...this.block, text]);
    this.block = [];
    this.answered = 0;
    if ((await this.answers(answers.length)).join("\n") !== answers.join("\n")) {
      throw new Over("the session is not answered as its copy was");
    }
    return alone(line, answers.slice(had));
  }

  /** Types keys at a console: how many of them were dropped.
   * @param {number} console
   * @param {number[]} keys */
  async type(console, keys) {
    this.step(["TYPE " + octal(console) + " " + keys.map(octal).join(" ")]);
    return number((await this.answers(1))[0].split(" ")[2]);
  }

  /** Gives lines that are never refused and open no block.
   * @param {string[]} texts */
  step(texts) {
    for (const text of texts) this.places.line(text);
    this.give(texts);
  }

  /** Gives RUN or TICK lines, and drains the console: the turns, and the bytes that were put out. The D
   * line ends the answer, because nobody knows before how many turns a RUN has.
   * @param {string[]} texts
   * @param {number} console
   * @returns {Promise<[Turn[], number[]]>} */
  async ticks(texts, console) {
    this.step([...texts, "DRAIN " + octal(console) + " 100"]);
    const answers = await this.answersUntil(line => line.startsWith("D ")), drained = answers[answers.length - 1];
    return [answers.slice(0, -1).map(turnOf), drained.split(" ").slice(2).map(number)];
  }

  /** The clock goes on.
   * @param {number} thirtieths */
  clock(thirtieths) {
    const text = "CLOCK " + octal(thirtieths);
    this.learn(alone(Object.assign(new Places(), this.places).line(text)));
    this.step([text]);
  }

  /** Ends the session, and completes what is kept: what is wrong with it, or nothing. */
  async end() {
    try {
      const [rest, status] = await this.host.end();
      for (const line of rest) this.transcript.push(line);
      this.kept.add(0, ["END"]);
      this.kept.add(1, rest);
      return status === 0 ? "" : "the program ended with status " + status;
    } catch (problem) {
      if (!(problem instanceof Over)) throw problem;
      return problem.message;
    } finally {
      this.kept.close();
    }
  }
}
