// Shared by the page and the commands: what is known of a MIDAS text at the line that is read, for its conditions and repeats.

import {SeveralWords, Unknown, Values, entryOf} from "./values.js";
import {ADDRESSES, Refused, sizeOf} from "./tree.js";

/** @typedef {import("./tree.js").Node} Node */
/** @typedef {import("./tree.js").Statement} Statement */

/** The symbols so far, and the location. After literals are placed the location is unknown up to the next LOC. */
export class SoFar {
  /** @param {number} start the location at which a text begins */
  constructor(start) {
    this.values = new Values();
    this.values.here = start;
  }

  /** A label of the location.
   * @param {string} name
   * @param {import("./tree.js").Place} at */
  label(name, at) { this.values.entries.set(name, entryOf(name, at, this.values.here)); }

  /** A statement more, whose labels are known.
   * @param {Statement} statement */
  note(statement) {
    const {kind, content} = statement;
    if (kind === "EQUALS") this.values.entries.set(statement.name, entryOf(statement.name, statement.at, content && this.known(content)));
    else if (kind === "RESERVE") this.values.entries.set(statement.name, entryOf(statement.name, statement.at, null));
    else if (kind === "LOC") this.values.here = content && this.known(content);
    else if (kind === "BLOCK") this.move(content && this.known(content));
    else if (kind === "WORDS" && content) this.move(sizeOf(content));
    else if (kind === "CONSTANTS" || kind === "VARIABLES") this.values.here = null;
  }

  /** The location goes on by so many words.
   * @param {number | null} size */
  move(size) {
    const here = this.values.here;
    this.values.here = here === null || size === null || here + size > ADDRESSES ? null : here + size;
  }

  /** The value of an expression; null if it is not known here, or wrong, which the pass over the whole text says.
   * @param {Node} node */
  known(node) {
    try {
      return this.values.of(node);
    } catch (problem) {
      if (problem instanceof Unknown || problem instanceof SeveralWords || problem instanceof Refused) return null;
      throw problem;
    }
  }
}
