// Shared by the page and the commands: what a word of a job or of a file may be read as, and what the lines so far show that later lines need.

import {Symbols} from "./symbols.js";
import {CALLS, FATAL, MOST_ARGUMENTS, PENDING, asciiOf, bits, bytePointer, character, isOn, isPrinting, number, octal, pcWord, short, signed,
        sixbit} from "./words.js";

/** Words that are names of devices and of the variables of USRVAR. */
export const NAMES = new Set(["TTY", "DSK", "USR", "LNK", "UNAME", "JNAME", "UIND", "SUPPRO", "CNSL", "PAGES", "UPC", "USTP", "PIRQC", "IFPIR",
                              "MASK", "MSK2", "DF1", "DF2"]);
const END_OF_FILE = "777777000003";

/** What the lines so far show, as far as a reader needs it for the lines after them. */
export class Known {
  constructor() {
    this.clock = 0;
    /** @type {Map<number, Set<number>>} */
    this.errors = new Map();             // slot -> words that get error numbers
    /** @type {Map<number, string>} */
    this.loaded = new Map();             // the words of the job that is being made
    /** @type {Map<number, string>} */
    this.image = new Map();              // all words of that job, as far as they are known before its end
    this.slot = 0;                       // the slot that the last LOAD or JOB made
    /** @type {number[]} */
    this.made = [];                      // the slots that LOAD and JOB lines made
    this.hasState = false;               // whether the session begins with the state part
    /** @type {Map<number, Symbols>} */
    this.symbols = new Map();            // slot -> the symbols that SYM lines gave its job
  }

  /** A job is made in a slot, and the lines that follow are about it.
   * @param {number} slot */
  begin(slot) {
    this.slot = slot;
    this.loaded = new Map();
    this.made.push(slot);
    this.errors.set(slot, new Set());
    this.symbols.set(slot, new Symbols());
  }

  /** The words of the job that was made last are known: which of them get error numbers. */
  settle() {
    this.errors.set(this.slot, errorWords(this.loaded));
    this.image = new Map();
  }

  /** The symbols of the job in a slot.
   * @param {number} slot */
  symbolsOf(slot) {
    const found = this.symbols.get(slot) || new Symbols();
    this.symbols.set(slot, found);
    return found;
  }

  /** Whether a word of a job gets error numbers.
   * @param {number} slot
   * @param {number} address */
  getsErrors(slot, address) { return (this.errors.get(slot) || new Set()).has(address); }
}

/** Two words of bits, if one is on.
 * @param {string} name
 * @param {string} one
 * @param {string} two */
export function bitsInWords(name, one, two) {
  const said = [], whole = number(one);
  if (whole) {
    const on = PENDING.filter(([bit]) => isOn(whole, bit)), isFatal = name === "pending" && on.some(([bit]) => bit <= FATAL);
    said.push(name + ": " + (on.map(([, short_, about]) => short_ + ", " + about).join("; ") || short(one)) + (isFatal ? " (fatal)" : ""));
  }
  return number(two) ? [...said, name + ", word 2: " + short(two)] : said;
}

/** A small number in decimal, and as a character if it may be one; nothing if that says no more.
 * @param {number} whole */
export function small(whole) {
  const said = Math.abs(whole) > 7 ? whole + " in decimal" : "";
  return said + (isPrinting(whole) ? ", or the byte " + character(whole) : "");
}

/** A call of the monitor or a .BREAK as one writes it; nothing for any other word.
 * @param {string} word */
export function callText(word) {
  const accumulator = bits(word, 9, 12), rest = bits(word, 13, 17);
  const where = octal(bits(word, 18, 35)) + (rest ? " (indexed or indirect)" : "");
  if (word.startsWith("043") && accumulator === 0) return ".CALL " + where;
  if (word.startsWith("040")) return ".IOT " + octal(accumulator) + "," + where;
  return word.startsWith("0457") ? ".BREAK 16," : "";
}

/** What a word of core or of a file may be read as; nothing if no reading is likelier than others.
 * @param {string} word */
export function reading(word) {
  const name = sixbit(word), whole = signed(word);
  if (CALLS[word] || NAMES.has(name)) return "the name " + (CALLS[word] || name);
  if (word === END_OF_FILE) return "what .IOT gives at the end of a file, an inferior or a link";
  if (word === "400000000000") return "bit 0 alone";
  if (Math.abs(whole) <= 0o777777) return small(whole);
  const isPointer = ["07", "44"].includes(word.slice(2, 4)) && word.slice(4, 6) === "00", pointer = isPointer && bytePointer(word);
  if (pointer) return "a byte pointer " + pointer;
  const text = asciiOf(word), pc = pcWord(word);
  return pc ? "a PC word, " + pc : callText(word) || (text ? "text " + text : "");
}

/** A block of a call in the words of a job: its address, its name, the addresses of its argument words, and whether one of them ends it.
 * @typedef {{address: number, name: string, words: number[], isEnded: boolean}} Block */

/** The blocks that the calls among loaded words name, if no index register and no indirect word leads there. A block has its first words and 1
 * to 8 arguments, of which the last one has bit 0 on; a word that begins another block ends none.
 * @param {Map<number, string>} loaded
 * @returns {Map<number, Block>} */
export function blocksOf(loaded) {
  const calls = [...loaded.values()].filter(word => word.startsWith("0430") && bits(word, 9, 17) === 0);
  const begins = new Set(calls.map(word => bits(word, 18, 35)).filter(at => "4567".includes((loaded.get(at) || "0")[0])));
  return new Map([...begins].map(address => {
    const words = [];
    let isEnded = false;
    for (let place = address + 2; words.length < MOST_ARGUMENTS && !isEnded && !begins.has(place); place += 1) {
      words.push(place);
      isEnded = "4567".includes((loaded.get(place) || "0")[0]);
    }
    const name = loaded.get(address + 1) || "";
    return [address, {address, name: CALLS[name] || sixbit(name), words, isEnded}];
  }));
}

/** What is said of blocks without an end.
 * @param {Map<number, string>} loaded
 * @param {Symbols} symbols
 * @returns {string[]} */
export function openBlocks(loaded, symbols) {
  return [...blocksOf(loaded).values()].filter(({isEnded}) => !isEnded).map(({address, name}) =>
    "the block at " + symbols.exact(address) + (name ? ", of " + name + "," : "") + " has no last word: bit 0 of its last argument word has to be on");
}

/** The words that get error numbers, by the blocks of calls among loaded words: their arguments of type 3.
 * @param {Map<number, string>} loaded */
export function errorWords(loaded) {
  /** @type {Set<number>} */
  const found = new Set();
  for (const [at, word] of loaded) {
    if (!"4567".includes(word[0]) || !CALLS[loaded.get(at + 1) || ""]) continue;
    for (let place = at + 2; place < at + 2 + MOST_ARGUMENTS; place += 1) {
      const argument = loaded.get(place);
      if (argument === undefined) break;
      if (bits(argument, 6, 8) === 3 && bits(argument, 13, 17) === 0) found.add(bits(argument, 18, 35));
      if (bits(argument, 0, 0)) break;
    }
  }
  return found;
}
