// Shared by the page and the commands: the pieces of text that a MIDAS text consists of, and characters as words.

import {Refused, Text, WORDS, placeAt} from "./tree.js";

/** @typedef {import("./tree.js").Place} Place */

/** A MIDAS text with LF as the end of each line, and without what is after its last line.
 * @param {string} source */
export function plainText(source) { return source.replace(/\r\n/g, "\n").replace(/[\0\x03\f]+$/, ""); }

/** A span of a piece: its beginning and its end.
 * @typedef {{piece: Piece, start: number, end: number}} Span */

/** How a piece differs from a whole text.
 * @typedef {object} Origin
 * @property {number} [from] where it begins
 * @property {number} [line] the number of its first line
 * @property {number} [lineStart] where this line begins
 * @property {string} [file] the name of its file, if it is not the text itself
 * @property {Span | null} [call] what gives it
 * @property {Place | null} [at] the place of all its characters, if the text does not have them
 * @property {string} [what] what gives its characters, as `the macro FOO`
 * @property {number} [pass] the pass of MIDAS that alone reads it; 0 for both
 * @property {number} [times] how often it is read, if REPEAT gives it */

/** A text that is read, or a piece that a macro, a condition or another file gives. */
export class Piece {
  /** @param {string} text up to the end of the piece
   * @param {Origin} origin */
  constructor(text, {from = 0, line = 1, lineStart = 0, file = "", call = null, at = null, what = "", pass = 0, times = 0} = {}) {
    this.text = text;
    this.position = from;
    this.line = line;
    this.lineStart = lineStart;
    this.begin = {position: from, line, lineStart};
    this.file = file;
    this.call = call;
    this.at = at;
    this.what = what;
    this.pass = pass;
    this.times = times;
    this.count = 0;              // how often it was read to its end
    /** @type {boolean | number | null} */
    this.held = null;            // whether the last condition held, or which pass it names
  }

  /** The place of a character of the present line.
   * @param {number} position
   * @returns {Place} */
  place(position) {
    if (this.at) {
      return {...this.at, note: "; in line " + this.line + " of " + this.what + (this.at.note.length < 200 ? this.at.note : "")};
    }
    return {...placeAt(this.line, position - this.lineStart + 1), file: this.file};
  }

  /** Begins again if it is to be read once more; else says that it is over. */
  isOver() {
    this.count += 1;
    if (this.count >= this.times) return true;
    Object.assign(this, this.begin, {held: null});
    return false;
  }

  /** Goes to a later position.
   * @param {number} position */
  skipTo(position) {
    for (let at = this.text.indexOf("\n", this.position); at >= 0 && at < position; at = this.text.indexOf("\n", at + 1)) {
      this.line += 1;
      this.lineStart = at + 1;
    }
    this.position = position;
  }
}

/** Six characters a word, from the left.
 * @param {string} text
 * @param {Place} at */
function sixbitWords(text, at) {
  const codes = [...text.toUpperCase()].map(one => one.charCodeAt(0) - 32);
  if (!codes.length || codes.some(code => code < 0 || code > 63)) {
    throw new Refused(at, "SIXBIT has the characters from the blank to _, and at least one of them is wanted");
  }
  return packed(codes, 6, 6);
}

/** Codes by so many in a word and so many bits, from the left.
 * @param {number[]} codes
 * @param {number} many
 * @param {number} size */
function packed(codes, many, size) {
  const words = [];
  for (let at = 0; at < codes.length; at += many) {
    words.push(codes.slice(at, at + many).reduce((word, code, place) => word + code * 2 ** (36 - size * (place + 1)), 0));
  }
  return words;
}

/** The words of a text.
 * @param {string} kind
 * @param {string} text
 * @param {Place} at */
export function textOf(kind, text, at) {
  if (/[^\0-\x7f]/.test(text)) throw new Refused(at, "a character in this text is no ASCII");
  if (kind === "SIXBIT") return new Text(kind, text, sixbitWords(text, at));
  if (kind === "ASCII" && !text) throw new Refused(at, "this text has no character, so it gives no word");
  return new Text(kind, text, packed([...text + (kind === "ASCIZ" ? "\0" : "")].map(one => one.charCodeAt(0)), 5, 7));
}

/** Characters as a number, at the right of the word: of 7 bits after ", of SIXBIT after '.
 * @param {string} mark
 * @param {string} text
 * @param {Place} at */
export function characterNumber(mark, text, at) {
  const most = mark === '"' ? 5 : 6;
  if (text.length > most || /[^\0-\x7f]/.test(text)) throw new Refused(at, "at most " + most + " characters of ASCII may follow " + mark);
  return [...text].reduce((value, one) => mark === '"' ? value * 2 ** 7 + one.charCodeAt(0) :
    value * 2 ** 6 + sixbitWords(one, at)[0] / (WORDS / 64), 0);
}

/** A character for a message.
 * @param {string} one */
export function shownCharacter(one) {
  const code = one.charCodeAt(0);
  return code > 32 && code < 127 ? one : "of code " + code.toString(8);
}

/** A text with blanks in the place of tabs.
 * @param {string} text */
export function withoutTabs(text) {
  let column = 0, shown = "";
  for (const one of text) {
    if (one === "\t") {
      const size = 8 - column % 8;
      shown += " ".repeat(size);
      column += size;
    } else {
      shown += one;
      column = one === "\n" || one === "\r" ? 0 : column + 1;
    }
  }
  return shown;
}

/** The line of a place for a reader, without tabs, and the column of the place in it, from 0.
 * @param {string} source
 * @param {{line: number, column: number}} at
 * @returns {[string, number]} */
export function lineOf(source, at) {
  const raw = source.replace(/\r\n/g, "\n").split("\n")[at.line - 1] || "";
  const text = raw.replace(/[^ -~\t]/g, "?");
  return [withoutTabs(text), withoutTabs(text.slice(0, at.column - 1)).length];
}
