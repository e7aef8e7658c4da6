// Shared by the page and the commands: a place for the literals that are left at the end of a MIDAS text.

import {START} from "./statements.js";
import {ADDRESSES, HALF, Refused} from "./tree.js";

/** @typedef {import("./tree.js").Place} Place */
/** @typedef {import("./values.js").Values} Values */

const PAGE = 0o2000;                     // words of a page
const FAR = 0o400000;                    // the upper half of core, which no buffer below reaches soon

/** Looks for a place. */
export class Search {
  /** @param {[number, number][]} parts the first address of each part of the text, and how many words it takes
   * @param {Values} values */
  constructor(parts, values) {
    /** @type {Set<number>} */
    this.taken = new Set();
    for (const [first, size] of parts) for (let at = first; at < first + size; at += 1) this.taken.add(at);
    this.order = [...this.taken].sort((one, other) => one - other);
    /** @type {Map<number, string>} */
    this.places = new Map();             // addresses at which a symbol names a place without a word
    /** @type {Map<number, string>} */
    this.numbers = new Map();            // numbers that may be such an address, too
    for (const [name, {value, node}] of values.entries) {
      if (value === null || value < START || value > HALF || this.taken.has(value)) continue;
      const isPlace = node === null || values.degree(node) === 1;
      (isPlace ? this.places : this.numbers).set(value, name);
    }
  }

  /** The symbol whose words may be at this place: what it names begins here, or below with nothing between.
   * @param {number} start
   * @param {number} size
   * @param {Map<number, string>} names */
  inTheWay(start, size, names) {
    const met = [...names.keys()].filter(at => at >= start ? at < start + size : this.nextWord(at) >= start);
    return met.length ? names.get(Math.max(...met)) || "" : "";
  }

  /** The first address from this one on that has a word; the end of core if none has.
   * @param {number} address */
  nextWord(address) {
    let low = 0, high = this.order.length;
    while (low < high) {
      const middle = (low + high) >> 1;
      if (this.order[middle] < address) low = middle + 1; else high = middle;
    }
    return low < this.order.length ? this.order[low] : ADDRESSES;
  }

  /** Whether no word is taken at a place.
   * @param {number} start
   * @param {number} size */
  isEmpty(start, size) { return this.nextWord(start) >= start + size; }

  /** Whether a place has room, and no symbol names it.
   * @param {number} start
   * @param {number} size */
  isFree(start, size) {
    return START <= start && start + size <= ADDRESSES && this.isEmpty(start, size) && !this.inTheWay(start, size, this.places) &&
      !this.inTheWay(start, size, this.numbers);
  }

  /** A place for so many words: the location, else one after other words, else a far page; and why it is not the location.
   * @param {number} location
   * @param {number} size
   * @param {Place} at
   * @returns {[number, string]} */
  place(location, size, at) {
    if (this.isFree(location, size)) return [location, ""];
    const name = this.inTheWay(location, size, this.places) || this.inTheWay(location, size, this.numbers);
    const why = name ? name + " may begin a buffer at " + location.toString(8) :
      location.toString(8) + " has other words or is below " + START.toString(8);
    for (const start of this.order.map(one => one + 1).filter(one => !this.taken.has(one))) {
      if (this.isFree(start, size)) return [start, why];
    }
    const far = new Map([...this.places].filter(([value]) => value >= FAR));
    for (let start = FAR; start + size <= ADDRESSES; start += PAGE) {
      const isNumber = [...this.numbers.keys()].some(one => one >= start && one < start + size);
      if (this.isEmpty(start, size) && !this.inTheWay(start, size, far) && !isNumber) return [start, why];
    }
    throw new Refused(at, "there is no place for " + size + " words of literals: reserve the words of buffers by BLOCK, or write CONSTANTS");
  }
}
