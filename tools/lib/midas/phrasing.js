// Shared by the page and the commands: words and expressions of a MIDAS text as the assembler here writes them.

import {nameOf} from "../chart.js";
import {leftHalf, rightHalf} from "./arithmetic.js";
import {SIGNIFICANT} from "./known.js";
import {HALF, Here, Minus, Name, Num, Operation, Slot, Swapped, Two, Word} from "./tree.js";
import {MOST, partsOf} from "./values.js";

/** @typedef {import("./naming.js").Naming} Naming */
/** @typedef {import("./tree.js").Node} Node */
/** @typedef {import("./tree.js").Text} Text */
/** @typedef {import("./values.js").Term} Term */
/** @typedef {import("./values.js").Values} Values */

const NICE = /^[!-:<-_]{1,6}$/;          // what SIXBIT of the assembler here takes: no blank and no `;`

/** A text, and whether it says less than the source does: a number for a name, or another name of an instruction. */
export class Phrase {
  /** @param {string} text
   * @param {boolean} [less] */
  constructor(text, less = false) {
    this.text = text;
    this.less = less;
  }

  /** One text after another.
   * @param {Phrase} other */
  then(other) { return new Phrase(this.text + other.text, this.less || other.less); }
}

/** Writes expressions and words at one location. Only symbols of `above` are named, if that is given. */
export class Phrasing {
  /** @param {Values} values
   * @param {Naming} naming
   * @param {number} location
   * @param {Set<string> | null} above */
  constructor(values, naming, location, above) {
    this.values = values;
    this.naming = naming;
    this.location = location;
    this.above = above;
  }

  // Expressions of 18 bits

  /** An expression, modulo 1000000.
   * @param {Node} node */
  expression(node) { return this.sum(this.flat(1, node)); }

  /** The terms of an expression, those of brackets among them.
   * @param {number} sign
   * @param {Node} node
   * @returns {Term[]} */
  flat(sign, node) {
    if (node instanceof Minus) return this.flat(-sign, node.of);
    if (node instanceof Two && (node.operator === "+" || node.operator === "-")) {
      return [...this.flat(sign, node.left), ...this.flat(node.operator === "+" ? sign : -sign, node.right)];
    }
    return node instanceof Word && node.isPlain && node.address ? this.flat(sign, node.address) : [[sign, node]];
  }

  /** A sum; one that begins with a minus begins with 0.
   * @param {Term[]} given */
  sum(given) {
    const all = this.together(given), some = all.filter(([, node]) => !this.isNothing(node));
    return (some.length ? some : all.slice(0, 1)).reduce((phrase, [sign, node], place) => {
      const mark = sign > 0 ? place ? "+" : "" : place ? "-" : "0-";
      return phrase.then(new Phrase(mark)).then(this.term(node));
    }, new Phrase(""));
  }

  /** Whether a term adds nothing to 18 bits, and is no name.
   * @param {Node} node */
  isNothing(node) { return !(node instanceof Name || node instanceof Here || node instanceof Slot) && rightHalf(this.values.of(node)) === 0; }

  /** The location of another word and the numbers added to it are one place, which a label names.
   * @param {Term[]} terms
   * @returns {Term[]} */
  together(terms) {
    const places = terms.filter(([sign, node]) => node instanceof Here && sign > 0 && node.address !== this.location);
    const at = terms.reduce((sum, [sign, node]) => sum + (node instanceof Num ? sign * node.value : 0), 0) +
      places.reduce((sum, [, node]) => sum + (/** @type {Here} */ (node).address || 0), 0);
    if (places.length !== 1 || at < 0 || at > HALF) return terms;
    return [[1, new Here(at)], ...terms.filter(one => !(one[1] instanceof Num) && one !== places[0])];
  }

  /** A term: a number, a symbol, the location or a literal's name.
   * @param {Node} node */
  term(node) {
    if (node instanceof Num) return new Phrase(rightHalf(node.value).toString(8), !node.plain || node.value > HALF);
    if (node instanceof Name && this.naming.isWritten(node.name) && (!this.above || this.above.has(node.name))) {
      return new Phrase(this.naming.of(node.name));
    }
    if (node instanceof Here) return node.address === this.location ? new Phrase(".") : this.near(node.address || 0);
    if (node instanceof Slot && !this.above) return new Phrase(this.naming.literals[node.number - 1], true);
    return new Phrase(rightHalf(this.values.of(node)).toString(8), true);
  }

  /** An address by the label before it.
   * @param {number} address */
  near(address) {
    let best = {value: -1, name: ""};
    for (const [name, {node, value}] of this.values.entries) {
      if (node || value === null || value > address || !this.naming.isWritten(name) || this.above && !this.above.has(name)) continue;
      if (value > best.value || value === best.value && name > best.name) best = {value, name};
    }
    if (!best.name) return new Phrase(address.toString(8), true);
    return new Phrase(this.naming.of(best.name) + (address > best.value ? "+" + (address - best.value).toString(8) : ""), true);
  }

  // Words

  /** The words of a statement, a line for each.
   * @param {Word | Text} content */
  content(content) {
    if (content instanceof Word) return [this.word(content)];
    const text = content.text.trimEnd().toUpperCase();
    if (content.kind === "SIXBIT" && content.words.length === 1 && NICE.test(text)) return [new Phrase("SIXBIT " + text)];
    return content.words.map(word => new Phrase("WORD " + word.toString(8), true));
  }

  /** A word.
   * @param {Word} word */
  word(word) {
    if (word.operation) return this.instruction(word) || this.halves(word, true);
    const terms = this.addressTerms(word);
    if (word.left || word.indirect || partsOf(word.address)[1].length || terms.some(([, node]) => this.hasName(node))) {
      return this.halves(word, false);
    }
    const [sign, node] = terms[0], isAlone = terms.length === 1 && sign > 0 && node instanceof Num && node.plain;
    return new Phrase("WORD " + this.values.of(word).toString(8), !isAlone);
  }

  /** Whether a term is written with a name or a place in it.
   * @param {Node} node */
  hasName(node) { return node instanceof Here || node instanceof Slot || node instanceof Name && this.naming.isWritten(node.name); }

  /** The terms of the right half of a word.
   * @param {Word} word
   * @returns {Term[]} */
  addressTerms(word) {
    const [plain, inParentheses] = partsOf(word.address), own = word.operation ? this.values.operation(word.operation) : 0;
    const more = rightHalf(this.values.sumOf(inParentheses) + rightHalf(own));
    const terms = plain.flatMap(([sign, node]) => this.flat(sign, node));
    return more ? [...terms, [1, new Num(more, false)]] : terms;
  }

  /** A word by its halves. The left one is a number if the source has no such half.
   * @param {Word} word
   * @param {boolean} less */
  halves(word, less) {
    const value = leftHalf(this.values.of(word)), isWritten = word.left && !word.indirect && !partsOf(word.address)[1].length;
    const left = isWritten ? this.expression(/** @type {Node} */ (word.left)) : new Phrase(value.toString(8), value > 0);
    const right = this.sum(this.addressTerms(word));
    return new Phrase("WORD ", less).then(left).then(new Phrase(",,")).then(right.text ? right : new Phrase("0"));
  }

  /** An instruction with its operands; null if it cannot be written as one.
   * @param {Word} word */
  instruction(word) {
    const operation = /** @type {Operation | Name} */ (word.operation), base = this.values.operation(operation);
    const name = nameOf(Math.floor(base / 2 ** 27)), address = this.address(word);
    if (!name || base % 2 ** 23 || !address) return null;
    const operand = this.accumulator(word, Math.floor(base / 2 ** 23) % 16);
    if (!operand) return null;
    const isSame = operation instanceof Operation && operation.name === name.slice(0, SIGNIFICANT);
    const whole = operand.then(address);
    return new Phrase(name + (whole.text ? " " : ""), !isSame).then(whole);
  }

  /** The accumulator of an instruction, with that which its name has already; null if both have one that is too great.
   * @param {Word} word
   * @param {number} own */
  accumulator(word, own) {
    const value = this.values.accumulator(word);
    if (own && value) return own + value <= MOST ? new Phrase((own + value).toString(8) + ",", true) : null;
    return word.accumulator ? this.expression(word.accumulator).then(new Phrase(",")) : new Phrase(own ? own.toString(8) + "," : "");
  }

  /** The address of an instruction; null if it has a left half that is no index register.
   * @param {Word} word */
  address(word) {
    const [, inParentheses] = partsOf(word.address), more = this.values.sumOf(inParentheses), left = leftHalf(more);
    if (left > MOST) return null;
    let index = left ? new Phrase("(" + left.toString(8) + ")", true) : new Phrase("");
    if (inParentheses.length === 1 && !rightHalf(more) && inParentheses[0][0] > 0) {
      const register = /** @type {Swapped} */ (inParentheses[0][1]);
      index = new Phrase("(").then(this.expression(register.of)).then(new Phrase(")"));
    }
    return new Phrase(word.indirect ? "@" : "").then(this.sum(this.addressTerms(word))).then(index);
  }
}
