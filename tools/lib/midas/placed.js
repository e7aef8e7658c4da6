// Shared by the page and the commands: parts of a MIDAS text with their places: statements, and pools of literals and variables.

/** @typedef {import("./tree.js").Place} Place */
/** @typedef {import("./tree.js").Slot} Slot */
/** @typedef {import("./tree.js").Statement} Statement */
/** @typedef {import("./tree.js").Text} Text */
/** @typedef {import("./tree.js").Word} Word */

/** A statement with its location, and with its content, in which names that change and `.` have their values. */
export class Placed {
  /** @param {Statement} statement
   * @param {number} location
   * @param {Word | Text | null} [content] */
  constructor(statement, location, content = null) {
    this.statement = statement;
    this.location = location;
    this.content = content;
  }
}

/** A variable with its number of words.
 * @typedef {{name: string, size: number, at: Place}} Variable */

/** Literals and variables, and their places. */
export class Pool {
  /** @param {Place} at
   * @param {number} location of the first one
   * @param {Slot[]} slots
   * @param {Variable[]} variables
   * @param {string} moved why they are not at the location that the text has there */
  constructor(at, location, slots, variables, moved) {
    this.at = at;
    this.location = location;
    this.slots = slots;
    this.variables = variables;
    this.moved = moved;
  }

  /** How many words all have. */
  get size() {
    return this.slots.reduce((sum, slot) => sum + slot.size, 0) + this.variables.reduce((sum, one) => sum + one.size, 0);
  }
}
