// Shared by the page and the commands: all mistakes of an assembly text. The program says which line is refused first; that line is left out, and
// the text is assembled again.

import {asmCause, undefinedIn} from "./asm_causes.js";
import {readingOf} from "./assembly.js";
import {cause} from "./bytes.js";
import {atLine, joined, split} from "./session.js";
import {refusal} from "./told.js";
import {number} from "./words.js";

/** @typedef {import("./assembly.js").Source} Source */
/** @typedef {import("./bytes.js").Cause} Cause */
/** @typedef {import("./told.js").Told} Told */

/** A line that is refused: its number, the reason, and the cause.
 * @typedef {{line: number, reason: string, cause: Cause}} Mistake */

const MOST = 100;                                // mistakes that are looked for
const LAST = ["CUT", "FULL"];                    // reasons after which each later line would be refused also
const JOB = "JOB U J -";                         // what takes the place of a first statement

/** The symbols that a line would define, as far as its text shows.
 * @param {Source} line */
function symbolsOf(line) {
  const guess = /^ *([A-Za-z][A-Za-z0-9.]*) *[:=]/.exec(line.text);
  return [...line.labels, ...(line.isEquals ? [line.body[0]] : []), ...(guess ? [guess[1].toUpperCase()] : [])];
}

/** Whether each line after this one would be refused for the same cause.
 * @param {Mistake} mistake
 * @param {Source | undefined} source */
function isLast({reason, cause: {text}}, source) {
  return LAST.includes(reason) || !source || reason === "RANGE" && text.startsWith("the location is") || text.startsWith("GO ended the text");
}

/** What takes the place of a line that is refused, so that the lines after it keep their locations.
 * @param {Source} line
 * @param {Mistake} mistake
 * @param {boolean} isFirst it is the first statement
 * @param {boolean} isAgain it was replaced before */
function replacement(line, mistake, isFirst, isAgain) {
  if (isFirst) return JOB;
  if (line.body[0] === "GO" && !isAgain) return "GO 0";
  const isWord = line.givesWord || mistake.reason === "SYNTAX" && /^[A-Z]/i.test(line.body[0] || "") && !/[:=]/.test(line.body.join(" "));
  return isWord && !isAgain && mistake.reason !== "TWICE" && !["JOB", "LOC", "GO"].includes(line.body[0]) ? "WORD 0" : "";
}

/** The mistakes of a text, in the order in which the program finds them; none if it is assembled. A symbol that is undefined because its line
 * is refused says so.
 * @param {string} text
 * @param {(text: string) => string} asm what the program's `asm` writes of a text
 * @returns {Mistake[]} */
export function mistakesIn(text, asm) {
  const original = readingOf(text).lines, lines = split(text), first = original.find(line => line.words.length);
  /** @type {Mistake[]} */
  const found = [];
  /** @type {Map<string, Mistake>} */
  const lost = new Map();                        // symbol -> why the line that would define it is refused
  const changed = new Set();
  while (found.length < MOST) {
    const now = lines.length ? joined(lines) : text, [said, place, reason] = asm(found.length ? now : text).split("\n")[0].split(" ");
    if (said !== "?") break;
    const at = number(place), reading = readingOf(now), source = original[at - 1], isAgain = changed.has(at);
    const isGone = reason === "CUT" && found.some(one => original[one.line - 1].body[0] === "GO");
    if (isGone) break;                           // its GO was left out
    const undefinedOne = reason === "UNDEF" ? undefinedIn(reading, reading.lines[at - 1]) : null;
    const why = undefinedOne && undefinedOne.later === undefined ? lost.get(undefinedOne.name) : undefined;
    const mistake = {line: at, reason, cause: undefinedOne && why ?
      cause(undefinedOne.name + ": its " + atLine(why.line) + " is refused, because " + why.cause.text, undefinedOne.column) :
      asmCause(reading, at, reason)};
    if (!isAgain) found.push(mistake);
    if (isLast(mistake, source) || isAgain && lines[at - 1] === "") break;
    for (const name of symbolsOf(source)) if (!lost.has(name)) lost.set(name, mistake);
    lines[at - 1] = replacement(source, mistake, source === first, isAgain);
    changed.add(at);
  }
  return found;
}

/** What is said of each of the mistakes of a text, by their lines.
 * @param {string} text
 * @param {Mistake[]} mistakes
 * @returns {Told[]} */
export function toldMistakes(text, mistakes) {
  const lines = split(text);
  return [...mistakes].sort((one, other) => one.line - other.line).map(({line, reason, cause: why}) => {
    const refused = refusal(line, reason, why);
    return {line, text: lines[line - 1] || "", answer: ["? " + refused.octal + " " + reason], means: [], refused, plain: ""};
  });
}
