// Shared by the page and the commands: the names that symbols and literals of a MIDAS text have in the text that is written.

import {SYMBOL} from "../assembly.js";
import {HALF} from "./tree.js";

/** @typedef {import("./values.js").Values} Values */

const LONGEST = 6;

/** Gives each symbol a name that the assembler here can have: its own wherever that is one. */
export class Naming {
  /** @param {Values} values
   * @param {number} literals */
  constructor(values, literals) {
    this.values = values;
    const names = [...values.entries.keys()];
    /** @type {Map<string, string>} */
    this.names = new Map(names.filter(name => SYMBOL.test(name)).map(name => [name, name]));
    this.taken = new Set(this.names.values());
    for (const name of names) if (!this.names.has(name)) this.names.set(name, this.made(plain(name)));
    this.literals = Array.from({length: literals}, (_, at) => this.made("LIT" + (at + 1)));
  }

  /** The name of a symbol.
   * @param {string} name */
  of(name) { return this.names.get(name) || name; }

  /** A name that nothing has yet, as near to the wish as can be.
   * @param {string} wish */
  made(wish) {
    let name = wish.slice(0, LONGEST);
    for (let number = 2; this.taken.has(name); number += 1) name = wish.slice(0, LONGEST - String(number).length) + number;
    this.taken.add(name);
    return name;
  }

  /** Whether a symbol is one of the text that is written: those of 18 bits with one value are.
   * @param {string} name */
  isWritten(name) {
    const entry = this.values.entries.get(name);
    return entry !== undefined && !entry.changes && entry.value !== null && entry.value <= HALF;
  }

  /** The symbols that have another name.
   * @returns {[string, string][]} */
  renamed() {
    const others = [...this.values.entries.keys()].filter(name => this.of(name) !== name && this.isWritten(name));
    return others.map(name => [name, this.of(name)]);
  }
}

/** A name with dots for $ and %, and without those that it begins with.
 * @param {string} name */
function plain(name) {
  const dotted = name.replace(/[$%]/g, ".").replace(/^\.+/, "");
  return /^[A-Z]/.test(dotted) ? dotted : "S" + dotted;
}
