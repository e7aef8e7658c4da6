// Shared by the page and the commands: the lines of a session, with the blocks that they are in. Nothing here decides whether a line is a
// good one: the program does (docs/SESSION.md). A text is a string with one character for each of its bytes.

import {isOctal, number, octal} from "./words.js";

/** A line of a session. After the last line comes one without text, which a refusal as CUT names.
 * @typedef {object} Line
 * @property {number} number from 1
 * @property {string} text without its LF
 * @property {string[]} words its runs of bytes other than space
 * @property {string} kind its first word; "a/" or "/" for words of a block; "" for an empty line or a comment
 * @property {string} block the block that it is in: LOAD, FILE, SYSTEM or none; GO, EOF and READY are in theirs
 * @property {number} since the number of the line that opened the block
 * @property {boolean} ended the input is at its end here
 * @property {number} version of the session text, which line 1 may say */

/** How many words each line has, its first word included, and the letter of its answer; 0 words: any number. The answer of RUN is
 * a T line for each of its turns, of which there may be none, and that of LIST an L line for each of its words.
 * @type {Record<string, [number, string]>} */
export const LINES = {
  VERSION: [2, ""], LOAD: [4, "J"], RO: [2, ""], SYM: [3, ""], GO: [2, ""], FILE: [4, ""], EOF: [1, ""], TICK: [3, "T"], RUN: [3, ""],
  TYPE: [0, "Y"], DRAIN: [3, "D"], CLOCK: [2, ""], INT: [4, ""], EXAM: [4, "E"], LIST: [4, "L"], STATE: [2, "S"], DEPOSIT: [4, ""],
  STOP: [2, ""], CONT: [2, ""], PEEK: [2, "P"], DIR: [2, "R"], SHOW: [4, "W"], END: [1, ""],
  SYSTEM: [2, ""], JOB: [5, ""], REGS: [9, ""], ALARM: [4, ""], UNDER: [3, ""], TTY: [4, ""], DSK: [7, ""], DRAFT: [6, ""], WROTE: [0, ""],
  USR: [6, ""], LNK: [7, ""], SENT: [0, ""], SHUT: [3, ""], IN: [0, ""], OUT: [0, ""], HOLD: [3, ""], TURN: [2, ""], READY: [1, ""]};

/** The lines that the state part alone has. It is a block, which SYSTEM in line 1 opens. */
export const STATE_LINES = ["SYSTEM", "JOB", "REGS", "ALARM", "UNDER", "TTY", "DSK", "DRAFT", "WROTE", "USR", "LNK", "SENT", "SHUT", "IN", "OUT", "HOLD",
                            "TURN", "READY"];

/** The lines that name a job's slot as their first number and need a job there. */
export const JOB_LINES = ["EXAM", "LIST", "STATE", "DEPOSIT", "STOP", "CONT", "INT", "PEEK"];

/** Which line opens a block, and which closes it.
 * @type {Record<string, string>} */
export const CLOSES = {LOAD: "GO", FILE: "EOF", SYSTEM: "READY"};

/** Lines after which a block is open, if they are not in the state part. */
const INSIDE = ["LOAD", "FILE", "a/", "RO", "SYM", "/"];

/** Whether a line is in the state part, SYSTEM and READY included.
 * @param {Line} line */
export function isInState(line) { return line.block === "SYSTEM" || !line.block && line.number === 1 && line.kind === "SYSTEM"; }

/** Whether a block is open after a line.
 * @param {Line} line */
export function isOpenAfter(line) { return INSIDE.includes(line.kind) || isInState(line) && line.kind !== "READY"; }

/** The number of a line at its left: decimal, and octal in parentheses.
 * @param {number} line */
export function numbered(line) { return line + " (" + octal(line) + ")"; }

/** The number of a line as each tool writes it: decimal as an editor counts, and octal as the program does.
 * @param {number} line */
export function atLine(line) { return "line " + line + " (octal " + octal(line) + ")"; }

/** The kind of a line with these words.
 * @param {string[]} words */
export function kindOf(words) {
  if (!words.length || words[0].startsWith(";")) return "";
  if (words[0].endsWith("/")) return words[0] === "/" ? "/" : "a/";
  return words[0];
}

/** The lines of a text, without their LF. A last line without LF counts if it is not empty.
 * @param {string} text */
export function split(text) {
  const lines = text.split("\n");
  if (lines[lines.length - 1] === "") lines.pop();
  return lines;
}

/** Lines as a text.
 * @param {string[]} lines */
export function joined(lines) { return lines.map(line => line + "\n").join(""); }

/** The words of a line: its runs of bytes other than space.
 * @param {string} text */
export function wordsIn(text) { return text.split(" ").filter(Boolean); }

/** Whether a line of this kind says the version, if it is line 1.
 * @param {string} kind */
function saysVersion(kind) { return kind === "VERSION" || kind === "SYSTEM"; }

/** The lines of a session with version 2 of the session text, which has RUN and LIST.
 * @param {string[]} lines
 * @returns {string[]} */
export function asVersion2(lines) {
  const kind = lines.length ? kindOf(wordsIn(lines[0])) : "";
  return [(kind === "SYSTEM" ? kind : "VERSION") + " 2", ...(saysVersion(kind) ? lines.slice(1) : lines)];
}

/** The place of the next line of a session: its number, the block that is open, and the version. */
export class Places {
  constructor(first = 1, version = 1) {
    this.number = first;
    this.block = "";
    this.since = 0;              // the number of the line that opened the block
    this.version = version;
  }

  /** The next line, which has this text.
   * @param {string} text
   * @returns {Line} */
  line(text) {
    const words = wordsIn(text), kind = kindOf(words);
    if (this.number === 1 && saysVersion(kind) && words.length === 2 && words[1].replace(/^0+/, "") === "2") this.version = 2;
    const line = {number: this.number, text, words, kind, block: this.block, since: this.since, ended: false, version: this.version};
    if (!this.block && CLOSES[kind] && (kind !== "SYSTEM" || this.number === 1)) [this.block, this.since] = [kind, this.number];
    else if (this.block && kind === CLOSES[this.block]) [this.block, this.since] = ["", 0];
    this.number += 1;
    return line;
  }

  /** The end of the input.
   * @returns {Line} */
  end() {
    return {number: this.number, text: "", words: [], kind: "", block: this.block, since: this.since, ended: true, version: this.version};
  }
}

/** The lines of a session with their blocks, and after them the end of the input.
 * @param {string} text
 * @returns {Line[]} */
export function linesOf(text) {
  const places = new Places(), lines = split(text).map(one => places.line(one));
  lines.push(places.end());
  return lines;
}

/** The slot that a line names; null if it names none.
 * @param {Line} line */
export function slotNamed(line) {
  return (JOB_LINES.includes(line.kind) || ["TICK", "JOB"].includes(line.kind)) && isOctal(line.words[1]) ? number(line.words[1]) : null;
}
