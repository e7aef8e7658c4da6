// Shared by the page and the commands: the lines of an assembly text (docs/ASM.md): their statements, locations, symbols and literals, for
// showing them to a reader. Nothing here decides whether a text is a good one, and no word is made here: the program does both. Of a text
// with mistakes this reads what it can.

import {OPCODES} from "./chart.js";
import {split} from "./session.js";
import {isOctal} from "./words.js";

export const SYMBOL = /^[A-Z][A-Z0-9.]{0,5}$/;
export const ADDRESSES = 2 ** 18;

/** A line of an assembly text. */
export class Source {
  /** @param {number} number from 1
   * @param {string} text without its LF */
  constructor(number, text) {
    this.number = number;
    this.text = text;
    const [words, columns] = wordsBeforeComment(text);
    this.words = words;                          // those before its comment
    this.columns = columns;                      // the column of each, from 1
    const plain = this.words.findIndex(word => !word.endsWith(":") || !SYMBOL.test(word.slice(0, -1)));
    const count = plain < 0 ? this.words.length : plain;
    this.labels = this.words.slice(0, count).map(word => word.slice(0, -1));
    this.body = this.words.slice(count);         // the words after its labels
    this.places = this.columns.slice(count);     // and their columns
    this.location = 0;                           // the location before its statement
  }

  /** Whether it gives a symbol a value. */
  get isEquals() { return this.body.length === 3 && this.body[1] === "="; }

  /** Whether it gives a word to its location. */
  get givesWord() {
    return this.body.length > 0 && !this.isEquals && (["WORD", "SIXBIT"].includes(this.body[0]) || OPCODES.has(this.body[0]));
  }
}

/** A literal of a text: what is in its brackets, its word if it can be read, and the line of its first use.
 * @typedef {{text: string, word: number | null, line: number}} Literal */

/** What a text says. */
export class Reading {
  /** @param {Source[]} lines */
  constructor(lines) {
    this.lines = lines;
    /** @type {Map<string, number>} */
    this.symbols = new Map();            // in order of definition
    /** @type {Map<string, number>} */
    this.defined = new Map();            // symbol -> the line that defines it first
    /** @type {Map<number, number>} */
    this.given = new Map();              // location -> the line that gives it a word first
    /** @type {Literal[]} */
    this.literals = [];                  // in order of first use, equal ones once
    this.base = 0;                       // the location after the last line, at which literals begin
  }

  /** Defines a symbol, if it is not defined yet.
   * @param {string} name
   * @param {number} value
   * @param {number} line */
  define(name, value, line) {
    if (this.symbols.has(name)) return;
    this.symbols.set(name, value);
    this.defined.set(name, line);
  }
}

/** A symbol has no value; its name is the message. */
export class Undefined extends Error {}
/** A term is no expression. */
export class NoTerm extends Error {}

/** The words of a line before its comment, and their columns.
 * @param {string} text
 * @returns {[string[], number[]]} */
function wordsBeforeComment(text) {
  const found = [...text.split(";")[0].matchAll(/[^ ]+/g)];
  return [found.map(([word]) => word), found.map(one => (one.index || 0) + 1)];
}

/** The terms of an expression: sign, term and place. The sign of the first one is nothing.
 * @param {string} text
 * @returns {[string, string, number][]} */
export function termsOf(text) {
  /** @type {[string, string, number][]} */
  const out = [];
  let sign = "", start = 0;
  for (let at = 0; at <= text.length; at += 1) {
    if (at < text.length && !"+-".includes(text[at])) continue;
    out.push([sign, text.slice(start, at), start]);
    [sign, start] = [text.slice(at, at + 1), at + 1];
  }
  return out;
}

/** The value of an expression; Undefined for a symbol without value, NoTerm for what is no expression.
 * @param {string} text
 * @param {Map<string, number>} symbols
 * @param {number} here */
export function valueOf(text, symbols, here) {
  let sum = 0;
  for (const [sign, term] of termsOf(text)) {
    let part = here;
    if (SYMBOL.test(term)) {
      const found = symbols.get(term);
      if (found === undefined) throw new Undefined(term);
      part = found;
    } else if (isOctal(term) && term.length <= 6) part = parseInt(term, 8);
    else if (term !== ".") throw new NoTerm(term);
    sum += sign === "-" ? -part : part;
  }
  return (sum % ADDRESSES + ADDRESSES) % ADDRESSES;
}

/** The value of an expression, null if it has none.
 * @param {Map<string, number>} symbols
 * @param {string} text
 * @param {number} here */
export function knownValue(symbols, text, here) {
  try {
    return valueOf(text, symbols, here);
  } catch (problem) {
    if (!(problem instanceof Undefined || problem instanceof NoTerm)) throw problem;
    return null;
  }
}

/** The word of `n` or `l,,r`; null if it cannot be read.
 * @param {string} text
 * @param {Map<string, number>} symbols
 * @param {number} here */
function wholeWord(text, symbols, here) {
  const comma = text.indexOf(",,");
  if (comma < 0) return isOctal(text) && text.length <= 12 ? parseInt(text, 8) : null;
  const left = knownValue(symbols, text.slice(0, comma), here), right = knownValue(symbols, text.slice(comma + 2), here);
  return left === null || right === null ? null : left * ADDRESSES + right;
}

/** The literal that a line uses, without brackets; nothing if it uses none.
 * @param {Source} line */
function literalOf(line) {
  const found = line.body.length === 2 && OPCODES.has(line.body[0]) && /\[([^\][]*)\]/.exec(line.body[1]);
  return found ? found[1] : null;
}

/** What a text says, as far as it can be read.
 * @param {string} text */
export function readingOf(text) {
  const reading = new Reading(split(text).map((one, at) => new Source(at + 1, one)));
  let location = 0;
  for (const line of reading.lines) {
    line.location = location;
    for (const label of line.labels) reading.define(label, location % ADDRESSES, line.number);
    if (line.isEquals) {
      const value = knownValue(reading.symbols, line.body[2], location);
      if (value !== null) reading.define(line.body[0], value, line.number);
    } else if (line.body[0] === "LOC" && line.body.length === 2) {
      const value = knownValue(reading.symbols, line.body[1], location);
      location = value === null ? location : value;
    } else if (line.givesWord) {
      if (!reading.given.has(location)) reading.given.set(location, line.number);
      location += 1;
    }
  }
  reading.base = location;
  readLiterals(reading);
  return reading;
}

/** Fills in the literals, in order of first use, equal ones once.
 * @param {Reading} reading */
function readLiterals(reading) {
  /** @type {Set<number | null>} */
  const seen = new Set();
  for (const line of reading.lines) {
    const text = literalOf(line);
    if (text === null) continue;
    const word = wholeWord(text, reading.symbols, line.location);
    if (word === null || !seen.has(word)) reading.literals.push({text, word, line: line.number});
    seen.add(word);
  }
}

/** Whether a file is an assembly text: by its name, or as its first statement is JOB.
 * @param {string} name
 * @param {string} text */
export function isAssembly(name, text) {
  if (name.endsWith(".asm")) return true;
  const first = split(text.slice(0, 100000)).map(one => wordsBeforeComment(one)[0]).find(words => words.length);
  return Boolean(first) && /** @type {string[]} */ (first)[0] === "JOB";
}
