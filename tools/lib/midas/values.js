// Shared by the page and the commands: what symbols, expressions and words of a MIDAS text are as numbers.

import {OPERATORS, halves, leftHalf, rightHalf, swapped, wrapped} from "./arithmetic.js";
import {GIVEN} from "./known.js";
import {ADDRESSES, HALF, Here, Minus, Name, Num, Operation, Refused, Slot, Swapped, Text, Two, Word} from "./tree.js";

/** @typedef {import("./tree.js").Node} Node */
/** @typedef {import("./tree.js").Place} Place */

/** The last accumulator. */
export const MOST = 0o17;

/** A text of several words in an expression. */
export class SeveralWords extends Error {
  constructor() { super("a text of several words has no place in an expression"); }
}

/** The value is not known yet: the name on which it waits. */
export class Unknown extends Error {
  /** @param {string} name
   * @param {Place | null} at */
  constructor(name, at) {
    super(name);
    this.symbol = name;
    this.at = at;
  }
}

/** A symbol: its value if that is known, and its expression if it has one. One that changes is given several values, one after the other.
 * @typedef {{name: string, at: Place, value: number | null, node: Word | Text | null, changes: boolean}} Entry */

/** A term of a sum with its sign, 1 or -1.
 * @typedef {[number, Node]} Term */

/** A symbol that is defined.
 * @param {string} name
 * @param {Place} at
 * @param {number | null} value
 * @param {Word | Text | null} [node]
 * @param {boolean} [changes]
 * @returns {Entry} */
export function entryOf(name, at, value, node = null, changes = false) { return {name, at, value, node, changes}; }

/** A line number in decimal and in octal.
 * @param {number} line */
export function both(line) { return line + " (octal " + line.toString(8) + ")"; }

/** The line of a place, with the name of its file if that is another one.
 * @param {Place} at */
export function lineNamed(at) { return both(at.line) + (at.file ? " of " + at.file : ""); }

/** The terms of a sum.
 * @param {Node} node
 * @param {number} [sign]
 * @returns {Term[]} */
export function termsOf(node, sign = 1) {
  if (node instanceof Minus) return termsOf(node.of, -sign);
  if (node instanceof Two && (node.operator === "+" || node.operator === "-")) {
    return [...termsOf(node.left, sign), ...termsOf(node.right, node.operator === "+" ? sign : -sign)];
  }
  return [[sign, node]];
}

/** The terms of an address: those of the address itself, and the words in parentheses.
 * @param {Node | null} node
 * @returns {[Term[], Term[]]} */
export function partsOf(node) {
  const terms = node ? termsOf(node) : [];
  return [terms.filter(([, one]) => !(one instanceof Swapped)), terms.filter(([, one]) => one instanceof Swapped)];
}

/** The symbols of a text, and what expressions are with them. */
export class Values {
  constructor() {
    /** @type {Map<string, Entry>} */
    this.entries = new Map();
    /** @type {number | null} */
    this.here = null;                    // what `.` is, if it has no value of its own
  }

  /** A symbol that is defined; only one that changes may be defined before.
   * @param {Entry} entry */
  define(entry) {
    const before = this.entries.get(entry.name);
    if (before && !(before.changes && entry.changes)) {
      throw new Refused(entry.at, entry.name + " is defined already, in line " + lineNamed(before.at));
    }
    this.entries.set(entry.name, entry);
  }

  /** The value of a symbol.
   * @param {string} name
   * @param {Place | null} at
   * @returns {number} */
  named(name, at) {
    const entry = this.entries.get(name);
    if (entry && entry.value !== null) return entry.value;
    if (!entry && name in GIVEN) return GIVEN[name];
    throw new Unknown(name, at);
  }

  /** The value of an expression or a word, in 36 bits.
   * @param {Node} node
   * @returns {number} */
  of(node) {
    if (node instanceof Num) return wrapped(node.value);
    if (node instanceof Name) return this.named(node.name, node.at);
    if (node instanceof Minus) return wrapped(-this.of(node.of));
    if (node instanceof Two) return this.ofTwo(node);
    if (node instanceof Swapped) return swapped(this.of(node.of));
    if (node instanceof Word) return this.ofWord(node);
    if (node instanceof Text && node.words.length === 1) return node.words[0];
    if (node instanceof Here || node instanceof Slot) {
      const address = node instanceof Here && node.address === null ? this.here : node.address;
      if (address === null) throw new Unknown(node instanceof Slot ? "a literal" : ".", null);
      return address;
    }
    throw new SeveralWords();
  }

  /** The value of two expressions with an operator.
   * @param {Two} node */
  ofTwo(node) {
    const left = this.of(node.left), right = this.of(node.right);
    if (node.operator === "/" && right === 0) throw new Refused(node.at, "a division by 0");
    return OPERATORS[node.operator](left, right);
  }

  /** The value of the terms of a sum.
   * @param {Term[]} terms */
  sumOf(terms) { return wrapped(terms.reduce((sum, [sign, node]) => sum + sign * this.of(node), 0)); }

  /** The word that the name of an instruction is alone.
   * @param {Operation | Name} operation */
  operation(operation) { return operation instanceof Operation ? operation.value : this.named(operation.name, operation.at); }

  /** The accumulator of an instruction.
   * @param {Word} word */
  accumulator(word) {
    const value = word.accumulator ? this.of(word.accumulator) : 0;
    if (value > MOST) throw new Refused(word.at, "the accumulator is " + value.toString(8) + ", and the last one is 17");
    return value;
  }

  /** The value of a word.
   * @param {Word} word */
  ofWord(word) {
    const [plain, inParentheses] = partsOf(word.address);
    const address = this.sumOf(plain), more = this.sumOf(inParentheses), indirect = word.indirect ? 0o20000000 : 0;
    if (word.operation === null && word.left === null) {
      if (inParentheses.length && plain.length && address > HALF) {
        throw new Refused(word.at, "a number with a left half and parentheses: write the halves with ,, between them");
      }
      return wrapped(address + more + indirect);
    }
    const own = word.operation ? this.operation(word.operation) : halves(this.of(/** @type {Node} */ (word.left)), 0);
    const base = own + this.accumulator(word) * 2 ** 23;
    const left = leftHalf(base) * ADDRESSES + indirect + leftHalf(more) * ADDRESSES;
    return wrapped(left + rightHalf(base + address + more));
  }

  /** Whether an expression is a place of the text: 1 for a place, 0 for a number such as the distance of two places.
   * @param {Node} node
   * @returns {number} */
  degree(node) {
    if (node instanceof Here || node instanceof Slot) return 1;
    if (node instanceof Name) {
      const entry = this.entries.get(node.name);
      return !entry || entry.changes ? 0 : entry.node === null ? 1 : this.degree(entry.node);
    }
    if (node instanceof Word && node.operation === null && node.left === null && node.address !== null) return this.degree(node.address);
    if (node instanceof Minus || node instanceof Two && "+-".includes(node.operator)) {
      return termsOf(node).reduce((sum, [sign, one]) => sum + sign * this.degree(one), 0);
    }
    return 0;
  }
}
