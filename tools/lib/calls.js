// Shared by the page and the commands: the call at which a job is, read from its words: which words its arguments name. This is for showing them to a reader; if a call
// cannot be read so, nothing is shown. A memory is a function from an address to the word there, 12 digits, or undefined.

import {MOST_ARGUMENTS, Wrong, bits, octal, sixbit, value} from "./words.js";

/** @typedef {(address: number) => string | undefined} Memory */
/** An argument: its role, and the address of its word or its own value.
 * @typedef {{role: string, address?: string, value?: string}} Argument */
/** A call: its place, its name and its arguments.
 * @typedef {{at: string, name: string, arguments: Argument[]}} CallRead */

/** What the inputs of each call are, in their order (docs/CALLS.md).
 * @type {Record<string, string[]>} */
export const INPUTS = {
  SLEEP: ["time"], REALT: ["period"], DISMIS: ["stack pointer"], USRVAR: ["job", "variable", "new value"],
  OPEN: ["channel", "device", "name 1", "name 2", "directory"], CLOSE: ["channel"], SIOT: ["channel", "pointer", "count"], FINISH: ["channel"],
  LISTEN: ["channel"], TTYLND: ["job"], ACCESS: ["channel", "position"], FILLEN: ["channel"], DELETE: ["device", "name 1", "name 2", "directory"],
  RENAME: ["device", "name 1", "name 2", "directory", "new name 1", "new name 2"], USRMEM: ["channel", "address", "new word"],
  UCLOSE: ["channel"], CORBLK: ["operation", "job", "page"]};

const BUDGET = 64;                       // indirect words and targets of XCT, together
const XCT = 0o256, CALL = 0o043, IOT = 0o040;

/** Reads words of a job, with one budget for indirect words and targets of XCT. */
class Reader {
  /** @param {Memory} memory */
  constructor(memory) { this.memory = memory; this.budget = BUDGET; }

  /** A word.
   * @param {number} address */
  word(address) {
    const word = this.memory(address % 2 ** 18);
    if (word === undefined) throw new Wrong("no word at " + octal(address));
    return word;
  }

  /** The word at an address that is indirect, or the target of XCT.
   * @param {number} address */
  further(address) {
    this.budget -= 1;
    if (this.budget < 0) throw new Wrong("too many indirect words");
    return this.word(address);
  }

  /** The effective address of an address word.
   * @param {string} first */
  effective(first) {
    for (let word = first; ;) {
      const index = bits(word, 14, 17), offset = index ? bits(this.word(index), 18, 35) : 0;
      const address = (bits(word, 18, 35) + offset) % 2 ** 18;
      if (!bits(word, 13, 13)) return address;
      word = this.further(address);
    }
  }

  /** The instruction at the PC, through XCT: its opcode, its accumulator and its effective address.
   * @param {number} pc */
  instruction(pc) {
    for (let word = this.word(pc); ;) {
      const address = this.effective(word);
      if (bits(word, 0, 8) !== XCT) return [bits(word, 0, 8), bits(word, 9, 12), address];
      word = this.further(address);
    }
  }

  /** An argument word of a block. The roles of the inputs that are still to come are in `inputs`.
   * @param {string} word
   * @param {string[]} inputs
   * @returns {Argument} */
  argument(word, inputs) {
    const kind = bits(word, 6, 8), address = octal(this.effective(word));
    if (kind > 5) throw new Wrong("no kind of argument");
    const role = ["", "", "output", "error number", "control", "control"][kind] || inputs.shift() || "input";
    return kind === 1 || kind === 5 ? {role, value: address} : {role, address};
  }

  /** The call whose block is at an address.
   * @param {number} pc
   * @param {number} address
   * @returns {CallRead} */
  block(pc, address) {
    if (!bits(this.word(address), 0, 0)) throw new Wrong("no block");
    const name = sixbit(this.word(address + 1)), inputs = [...(INPUTS[name] || [])], list = [];
    for (let at = address + 2; at < address + 2 + MOST_ARGUMENTS; at += 1) {
      list.push(this.argument(this.word(at), inputs));
      if (bits(this.word(at), 0, 0)) break;
    }
    return {at: octal(pc), name, arguments: list};
  }
}

/** The call at the PC; null if there is none that can be read.
 * @param {number} pc
 * @param {Memory} memory
 * @returns {CallRead | null} */
export function callAt(pc, memory) {
  const reader = new Reader(memory);
  try {
    const [opcode, accumulator, address] = reader.instruction(pc);
    if (opcode === IOT) {
      return {at: octal(pc), name: ".IOT", arguments: [{role: "channel", value: octal(accumulator)},
                                                      {role: "its word", address: octal(address)}]};
    }
    return opcode === CALL ? reader.block(pc, address) : null;
  } catch (problem) {
    if (problem instanceof Wrong) return null;
    throw problem;
  }
}

/** The value of the argument of a call with a role, or undefined.
 * @param {CallRead} call
 * @param {string} role
 * @param {Memory} memory */
export function argumentOf(call, role, memory) {
  const found = call.arguments.find(one => one.role === role);
  if (!found) return undefined;
  return value(found.address === undefined ? found.value || "" : memory(value(found.address)) || "");
}
