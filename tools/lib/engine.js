// Shared by the page and the commands: the proved program as a WebAssembly module, whose words, reads and writes its host answers
// (tools/weblib/host.c). A text has one character for each byte.

import {bytesOf, textOfBytes} from "./bytes.js";
import {Wrong} from "./words.js";

const NO_WORD = -1, LONG_WORD = -2;      // answers of the host to `arg`
const NO_SPACE = -28;                    // minus the number of an error of Linux
const FIRST_ROOM = 1 << 16, MOST_ROOM = 1 << 28;       // bytes of an answer

/** What the statuses other than "done" and "refused" say.
 * @type {Record<number, string>} */
export const STATUS = {1: "the words are no command", 4: "the answer has more than " + MOST_ROOM + " bytes", 5: "memory was refused",
                       6: "the input has more than 1048576 lines", 7: "a word is no text"};

/** Reads bytes, or writes them: how many, or minus the number of an error of Linux.
 * @typedef {(bytes: Uint8Array) => number} Move */

/** The module was left in the middle of a run, and is not used again. */
export class Trapped extends Error {}

/** An instance of the module. It may run again and again. */
export class Instance {
  /** @param {WebAssembly.Module} module
   * @param {Move} read
   * @param {Move} write */
  constructor(module, read, write) {
    /** @type {Uint8Array[]} */
    this.words = [];
    const host = {
      read: (/** @type {number} */ place, /** @type {number} */ length) => read(this.bytes(place, length)),
      write: (/** @type {number} */ place, /** @type {number} */ length) => write(this.bytes(place, length)),
      arg: (/** @type {number} */ at, /** @type {number} */ place, /** @type {number} */ length) => this.word(at, this.bytes(place, length)),
    };
    const {exports} = new WebAssembly.Instance(module, {host});
    this.memory = /** @type {WebAssembly.Memory} */ (exports.memory);
    this.main = /** @type {() => number} */ (exports.its_main);
  }

  /** Bytes of the memory, which is another buffer after it has grown.
   * @param {number} place
   * @param {number} length */
  bytes(place, length) { return new Uint8Array(this.memory.buffer, place >>> 0, length); }

  /** Gives the module a word: its length, or that there is none, or that it is longer than its place.
   * @param {number} at
   * @param {Uint8Array} place */
  word(at, place) {
    const word = this.words[at];
    if (!word) return NO_WORD;
    if (word.length > place.length) return LONG_WORD;
    place.set(word);
    return word.length;
  }

  /** Runs the program.
   * @param {Uint8Array[]} words the name of the program first
   * @returns {number} its exit status */
  run(words) {
    this.words = words;
    return this.main();
  }
}

/** The program over texts: a command and its input go in, what it writes and its status come out. */
export class Engine {
  /** @param {BufferSource} bytes of the module */
  constructor(bytes) {
    this.module = new WebAssembly.Module(bytes);
    this.input = new Uint8Array(0);
    this.room = new Uint8Array(FIRST_ROOM);
    this.taken = this.size = 0;          // bytes of the input, and of what is written
    this.instance = this.fresh();
  }

  /** A new instance of the module. */
  fresh() { return new Instance(this.module, place => this.read(place), bytes => this.write(bytes)); }

  /** Gives the module bytes of its input.
   * @param {Uint8Array} place */
  read(place) {
    const part = this.input.subarray(this.taken, this.taken + place.length);
    place.set(part);
    this.taken += part.length;
    return part.length;
  }

  /** Takes bytes of its answer, for which the room grows.
   * @param {Uint8Array} bytes */
  write(bytes) {
    const size = this.size + bytes.length;
    if (size > MOST_ROOM) return NO_SPACE;
    if (size > this.room.length) {
      const room = new Uint8Array(Math.max(size, 2 * this.room.length));
      room.set(this.room.subarray(0, this.size));
      this.room = room;
    }
    this.room.set(bytes, this.size);
    this.size = size;
    return bytes.length;
  }

  /** Obeys a command.
   * @param {string[]} words
   * @param {string} input
   * @returns {{status: number, output: string}} */
  call(words, input) {
    this.input = bytesOf(input);
    this.taken = this.size = 0;
    try {
      const status = this.instance.run(["its", ...words].map(bytesOf));
      return {status, output: textOfBytes(this.room.subarray(0, this.size))};
    } catch (problem) {
      if (!(problem instanceof WebAssembly.RuntimeError)) throw problem;
      this.instance = this.fresh();
      throw new Trapped("the module met a fault (" + problem.message + "); a new one is begun");
    }
  }

  /** What a command that is done or refused writes: "run", "asm" or "verify".
   * @param {string} kind
   * @param {string} input */
  answer(kind, input) { return this.ended(this.call([kind], input)).output; }

  /** Runs a session: its status and its transcript.
   * @param {string} text */
  run(text) {
    const {status, output} = this.ended(this.call(["run"], text));
    return {status, transcript: output};
  }

  /** The end of a command that is done or refused; each other one is wrong.
   * @param {{status: number, output: string}} end */
  ended(end) {
    if (end.status !== 0 && end.status !== 2) throw new Wrong(STATUS[end.status] || "the program ended with status " + end.status);
    return end;
  }
}
