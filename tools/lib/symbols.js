// Shared by the page and the commands: symbols of jobs, and the nearest one to an address.

import {isImmediate} from "./chart.js";
import {octal, value} from "./words.js";

const LEAST = 0o20;                      // a symbol with a smaller value is an accumulator or a constant
const FARTHEST = 0o200;                  // a word is named by a symbol that is nearer than this
const OPERAND = /^([A-Z.]+) ((?:[0-7]+,)?@?)([0-7]+)((?:\([0-7]+\))?)$/;

/** The symbols of a job. Of those with one address the one that was given last counts, as STATE shows it. */
export class Symbols {
  /** @param {Iterable<[string, number]>} [symbols] */
  constructor(symbols = []) {
    /** @type {Map<string, number>} */
    this.values = new Map();
    /** @type {Map<number, string>} */
    this.names = new Map();
    /** @type {number[]} */
    this.addresses = [];                 // in rising order
    for (const [name, address] of symbols) this.add(name, address);
  }

  /** One more symbol.
   * @param {string} name
   * @param {number} address */
  add(name, address) {
    this.values.set(name, address);
    if (!this.names.has(address)) this.addresses.splice(this.place(address), 0, address);
    this.names.set(address, name);
  }

  /** How many addresses are at most this one.
   * @param {number} address */
  place(address) {
    let low = 0, high = this.addresses.length;
    while (low < high) {
      const middle = (low + high) >> 1;
      if (this.addresses[middle] <= address) low = middle + 1; else high = middle;
    }
    return low;
  }

  /** The symbol of the greatest address at most this one, and the distance from it; nothing if there is none that is near. A constant is no
   * address: a symbol below 20 names no word, and one that is far names none but its own.
   * @param {number} address */
  nearest(address) {
    const first = this.addresses[this.place(address) - 1];
    if (first === undefined || first < LEAST || address - first >= FARTHEST) return "";
    return this.names.get(first) + (address > first ? "+" + octal(address - first) : "");
  }

  /** The symbol of just this address, else the address.
   * @param {number} address */
  exact(address) { return address >= LEAST && this.names.get(address) || octal(address); }

  /** The same in parentheses, to follow an address.
   * @param {number} address */
  near(address) {
    const name = this.nearest(address);
    return name ? " (" + name + ")" : "";
  }

  /** A word as the assembler writes it, with its address as a symbol if one has just this value. Immediate operands and accumulators stay
   * numbers.
   * @param {string} text */
  typed(text) {
    const found = OPERAND.exec(text), symbol = found && this.names.get(value(found[3]));
    if (!found || !symbol || value(found[3]) < LEAST || isImmediate(found[1])) return text;
    return found[1] + " " + found[2] + symbol + found[4];
  }
}
