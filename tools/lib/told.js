// Shared by the page and the commands: what is said of each line of a text to a reader: the line, its answer, what they mean, or why it is
// refused.

import {causeOf} from "./causes.js";
import {meaningOf} from "./meaning.js";
import {Probe, imageAt} from "./probing.js";
import {Known} from "./readings.js";
import {atLine, numbered} from "./session.js";
import {fitting} from "./transcript.js";
import {octal} from "./words.js";

/** @typedef {import("./bytes.js").Cause} Cause */
/** @typedef {import("./transcript.js").Exchange} Exchange */

/** A refused line: the reason, its number in octal, the column and the cause.
 * @typedef {{reason: string, octal: string, column: number | null, cause: string}} Refused */

/** What is said of one line of a text. `plain`: the line of the session that it was made into, if that is another one.
 * @typedef {{line: number, text: string, answer: string[], means: string[], refused: Refused | null, plain: string}} Told */

const LONGEST = 255;                     // so much of a line is shown to a reader
export const FARTHEST = 200;                    // a caret is shown up to this column
const WIDTH = 12;                        // of the numbers before a line

/** A refused line, as a value.
 * @param {number} line
 * @param {string} reason
 * @param {Cause} found
 * @returns {Refused} */
export function refusal(line, reason, found) { return {reason, octal: octal(line), column: found.column || null, cause: found.text}; }

/** What is said of a line of a session, if anything is.
 * @param {string} name
 * @param {Exchange} exchange
 * @param {Known} known
 * @returns {Told} */
function toldLine(name, exchange, known) {
  const {line, answer, reason} = exchange;
  /** @type {Told} */
  const one = {line: line.number, text: line.text, answer, means: [], refused: null, plain: ""};
  fitting(name, line, () => {
    if (reason) one.refused = refusal(line.number, reason, causeOf(exchange, known));
    else one.means = meaningOf(exchange, known);
  });
  return one;
}

/** What is said of each line of a session. If the program can be asked, also what a line did that its answer does not show.
 * @param {string} name
 * @param {Exchange[]} told
 * @param {import("./probing.js").Ask | null} [ask]
 * @returns {Generator<Told>} */
export function* toldEach(name, told, ask = null) {
  const known = new Known(), probe = ask ? new Probe(ask, told) : null;
  for (const [at, exchange] of told.entries()) {
    if (["LOAD", "JOB"].includes(exchange.line.kind) && !exchange.reason) known.image = imageAt(told, at);
    if (!exchange.line.ended || exchange.reason) {
      const one = toldLine(name, exchange, known);
      if (probe) one.means.push(...probe.said(at));
      yield one;
    }
  }
}

/** The same as a list.
 * @param {string} name
 * @param {Exchange[]} told
 * @param {import("./probing.js").Ask | null} [ask] */
export function toldLines(name, told, ask = null) { return [...toldEach(name, told, ask)]; }

/** A text for a screen: a byte that cannot be printed is a question mark.
 * @param {string} text */
export function shown(text) { return text.replace(/[^ -~]/g, "?"); }

/** The number of a line at the left: decimal, and octal in parentheses.
 * @param {number} line */
export function numberOf(line) { return numbered(line).padStart(WIDTH); }

/** Where and why a line is refused, in a sentence.
 * @param {number} line
 * @param {Refused} refused */
export function refusedSaid(line, refused) {
  return atLine(line) + (refused.column ? ", column " + refused.column + "," : "") + " is refused as " + refused.reason + ": " + refused.cause;
}

/** What is said of a line, as lines for a reader.
 * @param {Told} one */
export function inWords(one) {
  const out = [numberOf(one.line) + "  " + shown(one.text.slice(0, LONGEST))];
  if (one.plain) out.push(" ".repeat(WIDTH) + "= " + shown(one.plain));
  if (one.refused && one.refused.column && one.refused.column <= FARTHEST) out.push(" ".repeat(WIDTH + 1 + one.refused.column) + "^");
  out.push(...one.answer.map(answer => " ".repeat(WIDTH + 4) + shown(answer)), ...one.means.map(said => " ".repeat(WIDTH + 8) + said));
  if (one.refused) out.push(" ".repeat(WIDTH + 8) + refusedSaid(one.line, one.refused));
  return out.map(line => line.trimEnd());
}
