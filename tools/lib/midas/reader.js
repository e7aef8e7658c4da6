// Shared by the page and the commands: the tokens of a MIDAS text that are looked at before they are taken, and the pieces that they come from.

import {Piece} from "./characters.js";
import {Lexer} from "./lexer.js";
import {closingOf, pastBlanks} from "./macros.js";
import {Refused, statementOf} from "./tree.js";

/** @typedef {import("./tree.js").Place} Place */
/** @typedef {import("./tree.js").Statement} Statement */
/** @typedef {import("./lexer.js").Token} Token */

const DEEPEST = 100;                     // so many pieces may be in each other
/** So many pieces may be read, a repeated one each time. */
export const MOST = 2 ** 18;

/** Gives tokens, of one piece after the other. */
export class Reader extends Lexer {
  /** @param {string} source */
  constructor(source) {
    super(source);
    /** @type {Token[]} */
    this.ahead = [];                     // tokens that are not taken yet
    /** @type {Token | null} */
    this.last = null;                    // the last one that was taken
    /** @type {Statement[]} */
    this.remarks = [];                   // what is said of pieces at the beginning of a statement
    this.atStart = false;
    this.read = 0;                       // how many pieces were read
  }

  /** The next token.
   * @returns {Token} */
  next() { return this.token(); }

  // Tokens

  /** A token that is not taken yet.
   * @param {number} [far] */
  peek(far = 0) {
    while (this.ahead.length <= far) this.ahead.push(this.next());
    return this.ahead[far];
  }

  /** The next token. */
  take() {
    const token = this.peek();
    this.ahead.shift();
    this.last = token;
    return token;
  }

  /** Whether a token is one of these marks. After a token that ends a statement none is looked at.
   * @param {string[]} marks
   * @param {number} [far] */
  isMark(marks, far = 0) {
    if (far > 0 && ["LINE", "BREAK", "END"].includes(this.peek(far - 1).kind)) return false;
    const token = this.peek(far);
    return token.kind === "MARK" && marks.includes(token.name);
  }

  /** Whether a word ends here. */
  isOver() { return ["LINE", "BREAK", "END"].includes(this.peek().kind) || this.isMark([")", ">", "]"]); }

  /** A token as it is written.
   * @param {Token} token */
  shown(token) { return token.piece.text.slice(token.start, token.end).trim(); }

  /** What is written from one token to another: in the smallest piece that has both.
   * @param {Token} first
   * @param {Token} last */
  between(first, last) {
    for (const one of spansOf(first)) {
      const other = spansOf(last).find(span => span.piece === one.piece);
      if (other) return one.piece.text.slice(one.start, Math.max(other.end, one.start));
    }
    return this.shown(first);
  }

  /** The pass of MIDAS that alone reads a token; 0 for both.
   * @param {Token} token */
  passOf(token) {
    const span = spansOf(token).find(one => one.piece.pass);
    return span ? span.piece.pass : 0;
  }

  // Pieces

  /** Goes on with another piece.
   * @param {Piece} piece
   * @param {Token} token what asks for it */
  enter(piece, token) {
    if (this.pieces.length >= DEEPEST) {
      throw new Refused(token.at, this.shown(token) + " gives text without end: more than " + DEEPEST + " pieces in each other");
    }
    this.counted(token.at);
    this.pieces.push(piece);
  }

  /** One more piece is read.
   * @param {Place} at */
  counted(at) {
    this.read += 1;
    if (this.read > MOST) throw new Refused(at, "this gives text without end: more than " + MOST + ". pieces");
  }

  /** @param {Piece} piece */
  readAgain(piece) { this.counted(piece.place(piece.position)); }

  /** Says something of a piece, if a statement begins with it.
   * @param {Token} token
   * @param {string} text */
  remark(token, text) {
    if (this.atStart) this.remarks.push(statementOf("REMARK", token.at, {source: text.split(/\s+/).join(" ").trim()}));
  }

  /** What is written from a token up to the present position.
   * @param {Token} token */
  writtenSince(token) {
    const piece = this.piece;
    return piece === token.piece ? piece.text.slice(token.start, piece.position) : this.shown(token);
  }

  /** The body after a condition or a count: in brackets, or the rest of the line; its beginning, its end and what is after it. */
  body() {
    const piece = this.piece, from = pastBlanks(piece.text, piece.position);
    if (piece.text[from] === "[") {
      const to = closingOf(piece, from);
      return {from: from + 1, to, after: to + 1, inBrackets: true};
    }
    const stop = piece.text.indexOf("\n", from), to = stop < 0 ? piece.text.length : stop;
    return {from, to, after: to, inBrackets: false};
  }

  /** Goes on with a part of the present piece.
   * @param {Token} token what asks for it
   * @param {{from: number, to: number, after: number}} part
   * @param {import("./characters.js").Origin} [more] */
  enterPart(token, {from, to, after}, more = {}) {
    const piece = this.piece, {line, lineStart, file, at, what} = piece;
    const call = {piece, start: piece === token.piece ? token.start : from, end: after};
    const inner = new Piece(piece.text.slice(0, to), {from, line, lineStart, file, at, what, call, ...more});
    piece.skipTo(after);
    this.enter(inner, token);
  }
}

/** A token's span in its piece, then the spans of what gave the piece.
 * @param {Token} token
 * @returns {import("./characters.js").Span[]} */
function spansOf(token) {
  const spans = [];
  for (let span = /** @type {import("./characters.js").Span | null} */ (token); span; span = span.piece.call) spans.push(span);
  return spans;
}
