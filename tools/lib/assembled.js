// Shared by the page and the commands: what the program's `asm` makes of a text: its image, or the line that it refuses.

import {asmCause} from "./asm_causes.js";
import {readingOf} from "./assembly.js";
import {atLine, split} from "./session.js";
import {refusal, refusedSaid} from "./told.js";
import {Wrong, number} from "./words.js";

/** @typedef {import("./bytes.js").Cause} Cause */
/** @typedef {import("./told.js").Told} Told */

/** An assembly text and the image that the program makes from it. */
export class Assembled {
  /** @param {string} text
   * @param {string} session what the program wrote */
  constructor(text, session) {
    this.reading = readingOf(text);
    this.session = session;
    this.job = ["", "", ""];             // user name, job name, and its console or -
    /** @type {Map<number, string>} */
    this.words = new Map();              // address -> its word of 12 digits
    /** @type {Map<string, number>} */
    this.symbols = new Map();
    this.start = 0;
    /** @type {{line: number, reason: string, cause: Cause} | null} */
    this.refused = null;                 // the line that is refused
    for (const line of split(session)) this.take(line.split(" "));
  }

  /** Takes a line of what the program wrote.
   * @param {string[]} words */
  take(words) {
    const [first, one, two] = words;
    if (first === "?") this.refused = {line: number(one), reason: two, cause: asmCause(this.reading, number(one), two)};
    else if (first === "LOAD") this.job = words.slice(1, 4);
    else if (first.endsWith("/")) {
      words.slice(1).forEach((word, at) => this.words.set(number(first.slice(0, -1)) + at, word));
    } else if (first === "SYM") this.symbols.set(one, number(two));
    else if (first === "GO") this.start = number(one);
  }

  /** What is said of the line that is refused.
   * @returns {Told} */
  told() {
    if (!this.refused) throw new Error("no line is refused");
    const {line, reason, cause} = this.refused, source = this.reading.lines[line - 1];
    return {line, text: source ? source.text : "", answer: split(this.session).slice(0, 1), means: [], refused: refusal(line, reason, cause),
            plain: ""};
  }
}

/** A text with its image, which has to be a good one.
 * @param {string} name
 * @param {Assembled} made */
export function mustBeGood(name, made) {
  if (!made.refused) return made;
  const {line, reason, cause} = made.refused;
  throw new Wrong(name + ", " + refusedSaid(line, refusal(line, reason, cause)));
}

/** The name of a console in an image, for a reader.
 * @param {Assembled} made */
export function consoleSaid(made) { return made.job[2] === "-" ? "no console" : "console " + made.job[2]; }

/** The line of the text that gives a location its word, for a reader.
 * @param {Assembled} made
 * @param {number} location */
export function sourceOf(made, location) {
  const line = made.reading.given.get(location);
  return line === undefined ? "a place without a word" : atLine(line);
}
