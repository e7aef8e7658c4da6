// The largest checkpoint: all slots, all pages without a word that is 0, all blocks of files, and all symbols.

import {octal} from "../lib/words.js";

const SLOTS = 96, PAGES = 1024, BLOCKS = 2048, FILES = 256, SYMBOLS = 512, ROW = 16;
const ROWS_OF_PAGE = 1024 / ROW, ROWS_OF_BLOCK = 128 / ROW;

/** A count as text of a fixed width.
 * @param {number} whole
 * @param {number} digits */
function wide(whole, digits) { return octal(whole).padStart(digits, "0"); }

/** Words of a row.
 * @param {number} seed */
function row(seed) { return Array.from({length: ROW}, (_, at) => wide(seed * ROW + at + 1, 12)).join(" "); }

/** The lines of the checkpoint. */
export function* fullMachine() {
  yield "SYSTEM 2";
  yield "CLOCK 0";
  for (let file = 0; file < FILES; file += 1) {
    yield "FILE D F" + wide(file, 3) + " TXT";
    for (let at = 0; at < BLOCKS / FILES * ROWS_OF_BLOCK; at += 1) yield "/ " + row(file * 64 + at);
  }
  for (let slot = 0; slot < SLOTS; slot += 1) {
    yield "JOB " + octal(slot) + " U J" + wide(slot, 3) + " -";
    // page 0 is left out: its first words are the accumulators
    const pages = Math.floor(PAGES / SLOTS) + (slot < PAGES % SLOTS ? 1 : 0);
    for (let at = 0; at < pages * ROWS_OF_PAGE; at += 1) yield wide(1024 + at * ROW, 6) + "/ " + row(slot * 1000 + at);
    for (let symbol = 0; symbol < SYMBOLS; symbol += 1) yield "SYM S" + wide(symbol, 3) + " " + wide(1024 + symbol, 6);
    yield "REGS RUN 010000002000" + " 000000000000".repeat(6);
  }
  yield "READY";
}
