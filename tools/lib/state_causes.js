// Shared by the page and the commands: how the lines of the state part of a session are written, and why one is refused (docs/SESSION.md, "The
// state part").

import {cause, noName} from "./bytes.js";
import {isOctal, number, octal, short} from "./words.js";

/** @typedef {import("./session.js").Line} Line */
/** @typedef {import("./readings.js").Known} Known */
/** @typedef {import("./bytes.js").Cause} Cause */

/** What follows the first word of each line: n a number, tag a name or the 12 digits of a word, run RUN or STOP, con a console or `-`.
 * @type {Record<string, string>} */
export const STATE_FORMS = {
  SYSTEM: "n", CLOCK: "n", FILE: "tag tag tag", JOB: "n tag tag con", RO: "n", SYM: "tag n", REGS: "run n n n n n n n", ALARM: "n n n", UNDER: "n n",
  TTY: "n n n", DSK: "n n tag tag tag n", DRAFT: "n n tag tag tag", WROTE: "n n n", USR: "n n n n n", LNK: "n n n n tag tag", SENT: "n n", SHUT: "n n",
  IN: "n n", OUT: "n n", HOLD: "n n", TURN: "n", READY: ""};

/** How each line is written that the state part alone has.
 * @type {Record<string, string>} */
export const STATE_WRITTEN = {
  SYSTEM: "SYSTEM v", JOB: "JOB s u j c", REGS: "REGS r pc p1 p2 m1 m2 d1 d2", ALARM: "ALARM s period next", UNDER: "UNDER s t", TTY: "TTY s n w",
  DSK: "DSK s n d x y at", DRAFT: "DRAFT s n d x y", WROTE: "WROTE s n and 1 to 16 words", USR: "USR s n t w at", LNK: "LNK s n l w x y",
  SENT: "SENT l and 1 to 16 words", SHUT: "SHUT l w", IN: "IN c and 1 to 32 bytes", OUT: "OUT c and 1 to 32 bytes", HOLD: "HOLD c s", TURN: "TURN s",
  READY: "READY"};

/** What is at the places of a line: s a slot, c a channel, l a link, w a flag, p a position, a period of an alarm.
 * @type {Record<string, string>} */
const PLACES = {JOB: "s", ALARM: "sa", UNDER: "ss", TTY: "scw", DSK: "sc---p", DRAFT: "sc", WROTE: "sc", USR: "scswp", LNK: "sclw", SENT: "l", SHUT: "lw",
                HOLD: "-s", TURN: "s"};

/** The numbers with ranges of their own of a line: which word, least, most, and what it is.
 * @param {Line} line
 * @returns {[number, number, number, string][]} */
export function stateRanges({kind, version}) {
  /** @type {Record<string, [number, number, string]>} */
  const ranges = {s: [0, version === 2 ? 0o137 : 0o77, "a slot"], c: [0, 0o17, "a channel"], l: [0, 0o17, "a link"], w: [0, 1, "what is 1 or 0"],
                  p: [0, 0o37777777777, "a position"], a: [1, 0o200000000000, "the period of an alarm"]};
  return [...PLACES[kind] || ""].flatMap((one, at) => {
    const [least, most, what] = ranges[one] || [0, 0, ""];
    return what ? [/** @type {[number, number, number, string]} */ ([at + 1, least, most, what])] : [];
  });
}

/** Why a word is no name and no word of 12 digits.
 * @param {string} word
 * @param {number} column */
export function noTag(word, column) {
  if (isOctal(word) && word.length > 6) return word.length === 12 ? null : cause("a name, or the 12 digits of a word, is wanted here", column);
  return noName(word, column);
}

/** The numbers of a line's words; -1 for a word that is none.
 * @param {Line} line */
function numbersOf({words}) { return words.map(word => isOctal(word) ? number(word) : -1); }

/** No job is in a slot that the line names; or no JOB line comes before a line about its job.
 * @param {Line} line
 * @param {number[]} columns
 * @param {Known} known */
function noJob(line, columns, known) {
  const places = PLACES[line.kind] || "", values = numbersOf(line), made = [...new Set(known.made)].sort((one, other) => one - other).map(octal);
  if (!places) return cause("no JOB line comes before, about whose job this line would be", columns[0]);
  const at = [...places].findIndex((one, place) => one === "s" && !known.made.includes(values[place + 1])), place = at < 0 ? places.indexOf("s") : at;
  return cause("there is no job in slot " + octal(values[place + 1]) + "; JOB has made " + (made.length ?
    "jobs in " + (made.length === 1 ? "slot " : "slots ") + made.join(", ") : "none"), columns[place + 1]);
}

/** Why something is there already.
 * @type {Record<string, (words: string[], columns: number[]) => Cause>} */
const EXISTS = {
  JOB: (words, columns) => cause("there is already a job in slot " + short(words[1]), columns[1]),
  UNDER: (words, columns) => cause("slot " + short(words[1]) + " has a superior already", columns[1]),
  LNK: (words, columns) => cause("channel " + short(words[2]) + " of slot " + short(words[1]) + " is open already, or link " + short(words[3]) +
                                 " has other names, or this end of it was opened before", columns[2]),
  SHUT: (words, columns) => cause("the " + (number(words[2]) ? "writing" : "reading") + " end of link " + short(words[1]) +
                                  " was opened or closed before", columns[2]),
  HOLD: (words, columns) => cause("console " + words[1] + " has a holder already", columns[1])
};

/** Why a line does not fit the system so far.
 * @type {Record<string, (words: string[], columns: number[]) => Cause>} */
const UNFIT = {
  UNDER: (words, columns) => number(words[1]) === number(words[2]) ? cause("a job is not its own superior", columns[2]) :
    cause("slot " + short(words[2]) + " is below slot " + short(words[1]) + ": no job is below itself", columns[2]),
  TTY: (words, columns) => cause("the job in slot " + short(words[1]) + " has no console", columns[1]),
  WROTE: (words, columns) => cause("channel " + short(words[2]) + " of slot " + short(words[1]) + " writes no draft", columns[2]),
  USR: (words, columns) => cause("slot " + short(words[3]) + " is no inferior of slot " + short(words[1]), columns[3])
};

/** What there is no room for.
 * @type {Record<string, string>} */
const FULL = {WROTE: "all 2048 blocks of files are in use", SENT: "a link has 64 words at most", IN: "a console keeps 64 bytes at most, and none is dropped here",
              OUT: "a console keeps 64 bytes at most, and none is dropped here"};

/** The causes that only lines of the state part have, by their reasons; null if it is one of other lines, too.
 * @type {Record<string, (line: Line, columns: number[], known: Known) => Cause | null>} */
const CAUSES = {
  RANGE: ({kind, words}, columns, known) => kind === "ALARM" ?
    cause("the clock is at " + octal(known.clock) + ", and an alarm comes later, not at " + short(words[3]), columns[3]) : null,
  NOJOB: noJob,
  NOFILE: ({kind}, columns) => kind === "/" ? cause("no FILE line comes before, to whose file these words would be added", columns[0]) :
    cause("no file has these names: directory, name 1, name 2", columns[3]),
  EXISTS({kind, words}, columns) {
    if (kind === "FILE") return null;
    return (EXISTS[kind] || (() => cause("channel " + short(words[2]) + " of slot " + short(words[1]) + " is open already", columns[2])))(words, columns);
  },
  UNFIT: ({kind, words}, columns) => (UNFIT[kind] || (() => cause("there is no link " + short(words[1]), columns[1])))(words, columns),
  FULL: ({kind}, columns) => FULL[kind] ? cause(FULL[kind], columns[0]) : null
};

/** The cause of a refusal that only a line of the state part has; null if there is none.
 * @param {Line} line
 * @param {string} reason
 * @param {number[]} columns at which the words of the line begin
 * @param {Known} known */
export function stateCause(line, reason, columns, known) { return CAUSES[reason] ? CAUSES[reason](line, columns, known) : null; }
