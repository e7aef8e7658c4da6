// For the tests of the terminal: a substitute for the program, with one job in slot 0 that jumps to itself at 100. It answers the lines of a
// session, and refuses some.

import {linesOf, split, wordsIn} from "../lib/session.js";
import {octal} from "../lib/words.js";

export const LOOP = "LOAD U J 0\n100/ 254000000100\nGO 100\n";
export const STATE = "S 0 650000000000 520000000000 - 3 RUN 010000000100" + " 000000000000".repeat(6);

/** What answers a line of a session.
 * @param {string[]} words */
export function answerTo([kind, one, two]) {
  const shown = {LOAD: "J 0", TICK: "T 0 " + two + "*", PEEK: "P 0 USER - 0 - - -", DRAIN: "D 0 101", TYPE: "Y 0 1", STATE,
                 EXAM: "E 0 000100 254000000100", LIST: "L 0 000100 JRST 100"};
  return kind === "RUN" ? new Array(parseInt(one, 8)).fill("T 0 " + two + "*") : shown[kind] ? [shown[kind]] : [];
}

/** What a copy answers to a session.
 * @param {string} text */
export function copied(text) {
  const out = [], lines = split(text);
  for (const [at, line] of lines.entries()) {
    const words = wordsIn(line), reason = words[0] === "NONE" ? "SYNTAX" : ["STATE", "PEEK"].includes(words[0]) && words[1] !== "0" ? "NOJOB" : "";
    if (reason) return [...out, "? " + octal(at + 1) + " " + reason];
    out.push(...answerTo(words));
  }
  return linesOf(text).pop().block ? [...out, "? " + octal(lines.length + 1) + " CUT"] : out;
}

/** A host of a sitting (tools/lib/sitting.js) that needs no program, and what was written to it. */
export class Substitute {
  constructor() {
    this.written = [];
    this.answers = [];
    this.status = 0;
    this.copy = async text => ({output: copied(text).map(line => line + "\n").join(""), problem: ""});
  }

  write(texts) {
    this.written.push(...texts);
    this.answers.push(...texts.flatMap(text => answerTo(wordsIn(text))));
  }

  async read() { return this.answers.shift(); }

  async end() { return [this.answers.splice(0), this.status]; }
}

/** What keeps a session and its transcript, as two texts. */
export class Texts {
  constructor() { this.texts = ["", ""]; }

  add(which, lines) { this.texts[which] += lines.map(line => line + "\n").join(""); }

  close() { this.isClosed = true; }
}
