// Shared by the page and the commands: the characters of a MIDAS text, made into tokens.

import {Piece, characterNumber, plainText, shownCharacter, textOf} from "./characters.js";
import {LINES, SIGNIFICANT, TEXTS} from "./known.js";
import {Num, Refused, WORD} from "./tree.js";

/** @typedef {import("./tree.js").Place} Place */
/** @typedef {import("./tree.js").Text} Text */

const CONSTITUENT = /[A-Za-z0-9.$%]+/y;
const LEFT_OUT = /[ \t\f]*/y;
const FLOATING = /^([0-9]+\.[0-9]+(E[0-9]*)?|[0-9]+\.E[0-9]+)$/;
const MARKS = ["==:", "=:", "==", ",,", "::", "=", ",", ":", "+", "-", "*", "/", "&", "#", "\\", "_", "(", ")", "[", "]", "<", ">", "@"];

/** What kinds of tokens there are: REST is that of a line, LINE its end, BREAK a `?`, END the end of the text.
 * @typedef {"SYMBOL" | "NUMBER" | "TEXT" | "REST" | "MARK" | "LINE" | "BREAK" | "END"} Kind */

/** A token.
 * @typedef {object} Token
 * @property {Kind} kind
 * @property {Place} at
 * @property {Piece} piece
 * @property {number} start its beginning and its end in its piece
 * @property {number} end
 * @property {string} name of a symbol or mark, the comment of LINE, the text of REST
 * @property {Num} [value] of a number
 * @property {Text} [text] of a text
 * @property {boolean} blank a blank is before it
 * @property {boolean} variable a symbol with ' after it */

/** What a pattern finds at a position.
 * @param {RegExp} pattern a sticky one
 * @param {string} text
 * @param {number} at */
export function found(pattern, text, at) {
  pattern.lastIndex = at;
  const match = pattern.exec(text);
  return match ? match[0] : "";
}

/** Gives the tokens one by one: those of the last piece, and after its end those of the piece that has it. */
export class Lexer {
  /** @param {string} source */
  constructor(source) {
    /** @type {Piece[]} */
    this.pieces = [new Piece(plainText(source))];
    /** @type {Map<string, string>} */
    this.shortened = new Map();          // names of more than six characters, with what counts of them
  }

  /** The piece that is read. */
  get piece() { return this.pieces[this.pieces.length - 1]; }

  /** The next token.
   * @returns {Token} */
  token() {
    let blank = false;
    for (;;) {
      const piece = this.piece, start = piece.position + found(LEFT_OUT, piece.text, piece.position).length;
      blank = blank || start > piece.position;
      piece.position = start;
      if (start < piece.text.length || this.pieces.length === 1) break;
      if (piece.isOver()) this.pieces.pop();
      else this.readAgain(piece);
    }
    const piece = this.piece, start = piece.position;
    const token = this.atEnd(start) || this.constituents(start) || this.characters(start) || this.mark(start);
    token.blank = blank;
    piece.position = token.end;
    return token;
  }

  /** A piece is read once more. The reader counts how often.
   * @param {Piece} _piece */
  readAgain(_piece) {}

  /** A token of the present piece.
   * @param {Kind} kind
   * @param {number} start
   * @param {number} end
   * @param {Partial<Token>} [more]
   * @returns {Token} */
  made(kind, start, end, more = {}) {
    const piece = this.piece;
    return {kind, at: piece.place(start), piece, start, end, name: "", blank: false, variable: false, ...more};
  }

  /** The end of the text or of a line, with its comment; or a break.
   * @param {number} start */
  atEnd(start) {
    const piece = this.piece, text = piece.text;
    if (start >= text.length) return this.made("END", start, start);
    if (text[start] === "?") return this.made("BREAK", start, start + 1);
    if (text[start] !== ";" && text[start] !== "\n") return null;
    const stop = text.indexOf("\n", start), until = stop < 0 ? text.length : stop;
    const token = this.made("LINE", start, stop < 0 ? until : until + 1, {name: text.slice(start, until)});
    if (stop >= 0) piece.skipTo(until + 1);
    return token;
  }

  /** A number or a symbol, and a text that belongs to it.
   * @param {number} start */
  constituents(start) {
    const text = this.piece.text, written = found(CONSTITUENT, text, start);
    if (!written) return null;
    const word = written.toUpperCase(), end = start + written.length, name = word.slice(0, SIGNIFICANT), after = text[end];
    const value = numberOf(word, this.piece.place(start));
    if (value) return this.made("NUMBER", start, end, {value});
    if (LINES.includes(name) && after !== ":" && after !== "=") {
      const rest = found(/[^;\n]*/y, text, end);
      return this.made("REST", start, end + rest.length, {name: name + rest.trimEnd()});
    }
    if (TEXTS.includes(name) && after !== ":" && after !== "=") return this.delimited(name, start, end);
    if (after === '"') {
      throw new Refused(this.piece.place(end), "a name with \" after it names a block of symbols, and there are no blocks here");
    }
    if (word.length > SIGNIFICANT) this.shortened.set(word, name);
    return this.made("SYMBOL", start, end + (after === "'" ? 1 : 0), {name, variable: after === "'"});
  }

  /** A text between two equal characters; an end of a line in it is carriage return and line feed, as on ITS.
   * @param {string} name
   * @param {number} start
   * @param {number} end */
  delimited(name, start, end) {
    const piece = this.piece, opening = end + found(LEFT_OUT, piece.text, end).length, mark = piece.text[opening] || "";
    const closing = mark.trim() && !found(CONSTITUENT, mark, 0) ? piece.text.indexOf(mark, opening + 1) : -1;
    const at = piece.place(start);
    if (closing < 0) throw new Refused(at, "the text of this " + name + " has to be between two equal characters, as in SIXBIT /TTY/");
    const text = piece.text.slice(opening + 1, closing).replace(/\n/g, "\r\n");
    const token = name === ".LENGT" ? this.made("NUMBER", start, closing + 1, {value: new Num(text.length, false)}) :
      this.made("TEXT", start, closing + 1, {text: textOf(name, text, at)});
    piece.skipTo(closing + 1);
    return token;
  }

  /** Characters as a number: "A in ASCII and 'A in SIXBIT, at the right of the word; ^A is a control character.
   * @param {number} start */
  characters(start) {
    const text = this.piece.text, mark = text[start], at = this.piece.place(start);
    if (!"\"'^".includes(mark)) return null;
    const first = text[start + 1] || "";
    if (first === "" || first === "\n") throw new Refused(at, "a character is wanted after " + mark);
    if (mark === "^") {
      if (first > "\x7f") throw new Refused(at, "a character of ASCII is wanted after ^");
      return this.made("NUMBER", start, start + 2, {value: new Num(first.toUpperCase().charCodeAt(0) ^ 64, false)});
    }
    const characters = first + found(CONSTITUENT, text, start + 2);
    return this.made("NUMBER", start, start + 1 + characters.length, {value: new Num(characterNumber(mark, characters, at), false)});
  }

  /** A mark of punctuation.
   * @param {number} start */
  mark(start) {
    const text = this.piece.text, mark = MARKS.find(one => text.startsWith(one, start));
    if (!mark) throw new Refused(this.piece.place(start), "the character " + shownCharacter(text[start]) + " has no meaning here");
    return this.made("MARK", start, start + mark.length, {name: mark[0] === "=" ? "=" : mark[0] === ":" ? ":" : mark});
  }
}

/** An octal number, or a decimal one with a point; null for a symbol.
 * @param {string} word
 * @param {Place} at */
function numberOf(word, at) {
  if (FLOATING.test(word)) throw new Refused(at, word + " is a floating number, and the machine has none");
  const digits = word.endsWith(".") ? word.slice(0, -1) : word;
  if (!/^[0-9]+$/.test(digits)) return null;
  if (digits === word && /[89]/.test(word)) {
    throw new Refused(at, word + " has a digit above 7: a decimal number ends with a point, as " + word + ". does");
  }
  const value = parseInt(digits, digits === word ? 8 : 10);
  if (value > WORD) throw new Refused(at, word + " is no number of 36 bits");
  return new Num(value, digits === word);
}
