// Shared by the page and the commands: what a MIDAS text consists of: expressions, words, literals and statements, each with its place.

/** How many words there are, and how many addresses. */
export const WORDS = 2 ** 36, ADDRESSES = 2 ** 18;
/** The greatest word, and the greatest address. */
export const WORD = WORDS - 1, HALF = ADDRESSES - 1;

/** A place of a text: its line and its column from 1, the file if it is not the text itself, and what gave the characters if the text does
 * not have them there.
 * @typedef {{line: number, column: number, file: string, note: string}} Place */

/** A place of the text itself.
 * @param {number} line
 * @param {number} column
 * @returns {Place} */
export function placeAt(line, column) { return {line, column, file: "", note: ""}; }

/** The text is refused: the place, and the cause in words. */
export class Refused extends Error {
  /** @param {Place} at
   * @param {string} cause */
  constructor(at, cause) {
    super(cause + at.note);
    this.at = at;
  }

  /** The cause. */
  get cause() { return this.message; }
}

/** A number; a plain one is written in octal in the source. */
export class Num {
  /** @param {number} value
   * @param {boolean} [plain] */
  constructor(value, plain = true) {
    this.value = value;
    this.plain = plain;
  }
}

/** A symbol that is used. */
export class Name {
  /** @param {string} name
   * @param {Place} at */
  constructor(name, at) {
    this.name = name;
    this.at = at;
  }
}

/** The location, `.`; in a literal it is that of the word that uses the literal. */
export class Here {
  /** @param {number | null} [address] */
  constructor(address = null) { this.address = address; }
}

/** An expression with a minus before it. */
export class Minus {
  /** @param {Node} of */
  constructor(of) { this.of = of; }
}

/** Two expressions with an operator between them. */
export class Two {
  /** @param {string} operator
   * @param {Node} left
   * @param {Node} right
   * @param {Place} at */
  constructor(operator, left, right, at) {
    this.operator = operator;
    this.left = left;
    this.right = right;
    this.at = at;
  }
}

/** A word in parentheses: its halves change places. */
export class Swapped {
  /** @param {Node} of */
  constructor(of) { this.of = of; }
}

/** An instruction's name as it is written, with the word that it is alone. */
export class Operation {
  /** @param {string} name
   * @param {number} value */
  constructor(name, value) {
    this.name = name;
    this.value = value;
  }
}

/** What a word may have.
 * @typedef {object} Fields
 * @property {Operation | Name | null} [operation]
 * @property {Node | null} [left] the left half, if `,,` is written
 * @property {Node | null} [accumulator]
 * @property {boolean} [indirect]
 * @property {Node | null} [address]
 * @property {Place} [at] */

/** A word: an instruction, two halves with `,,` between them, or an expression alone. */
export class Word {
  /** @param {Fields} fields */
  constructor({operation = null, left = null, accumulator = null, indirect = false, address = null, at = placeAt(0, 0)}) {
    this.operation = operation;
    this.left = left;
    this.accumulator = accumulator;
    this.indirect = indirect;
    this.address = address;
    this.at = at;
  }

  /** Whether it is an expression alone, without @ before it. */
  get isPlain() { return this.operation === null && this.left === null && !this.indirect; }
}

/** Words of text: SIXBIT, ASCII or ASCIZ. */
export class Text {
  /** @param {string} kind
   * @param {string} text
   * @param {number[]} words */
  constructor(kind, text, words) {
    this.kind = kind;
    this.text = text;
    this.words = words;
  }
}

/** One statement of a literal, with the comment of its line and its source.
 * @typedef {{content: Word | Text, comment: string, source: string}} Item */

/** A literal as the source has it. */
export class Literal {
  /** @param {Item[]} items */
  constructor(items) { this.items = items; }
}

/** A literal that has its place among the others; equal ones share it. */
export class Slot {
  /** @param {Item[]} items
   * @param {number} number from 1, in order of first use */
  constructor(items, number) {
    this.items = items;
    this.number = number;
    /** @type {number | null} */
    this.address = null;
  }

  /** How many words it has. */
  get size() { return this.items.reduce((sum, item) => sum + sizeOf(item.content), 0); }
}

/** @typedef {Num | Name | Here | Minus | Two | Swapped | Word | Text | Literal | Slot} Node */

/** How many words a statement gives.
 * @param {Word | Text} content */
export function sizeOf(content) { return content instanceof Text ? content.words.length : 1; }

/** What a statement is: nothing, words, a symbol with a value, LOC, BLOCK, CONSTANTS, VARIABLES, a variable (.SCALAR and .VECTOR), TITLE, a line
 * that means nothing here, or END.
 * @typedef {"NOTHING" | "WORDS" | "EQUALS" | "LOC" | "BLOCK" | "CONSTANTS" | "VARIABLES" | "RESERVE" | "TITLE" | "REMARK" | "END"} Kind */

/** A statement of the source: its labels, what it is, and its comment.
 * @typedef {object} Statement
 * @property {Kind} kind
 * @property {Place} at
 * @property {{name: string, at: Place}[]} labels
 * @property {string} name of EQUALS and RESERVE, and the text of TITLE and REMARK
 * @property {Word | Text | null} content
 * @property {string} comment
 * @property {string} source as it is written, without labels and comment
 * @property {number} indent how far its comment is from the beginning of the line */

/** A statement.
 * @param {Kind} kind
 * @param {Place} at
 * @param {Partial<Statement>} [more]
 * @returns {Statement} */
export function statementOf(kind, at, more = {}) {
  return {kind, at, labels: [], name: "", content: null, comment: "", source: "", indent: 0, ...more};
}

/** What two parts of a text have in common if they mean the same.
 * @param {unknown} part
 * @returns {string} */
export function meaningOf(part) {
  return JSON.stringify(part, (key, value) => {
    if (["at", "plain", "comment", "source"].includes(key)) return undefined;
    if (value instanceof Slot) return ["slot", value.number];
    if (!value || typeof value !== "object" || Array.isArray(value)) return value;
    return {class: value.constructor.name, ...value};
  });
}
