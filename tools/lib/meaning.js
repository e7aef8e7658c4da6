// Shared by the page and the commands: what the lines of a session and of its transcript mean, in words. Nothing here knows the machine.

import {nameOf, typeOut} from "./chart.js";
import {NAMES, Known, bitsInWords, blocksOf, callText, openBlocks, reading} from "./readings.js";
import {STATE_SAYS, fileOf, namesAt, tagSaid} from "./state_said.js";
import {peekOf, runsOf, stateOf, turnsOf, wordsOf} from "./transcript.js";
import {CALLS, ERRORS, STATES, TICKS, WAITS, bits, bytePointer, callName, countOf, flagsOf, held, isOctal, number, octal, pcOf, pendingNames, short,
        sixbit, twelve, typed} from "./words.js";

/** @typedef {import("./transcript.js").Exchange} Exchange */

const RUNS = 5;                  // up to so many runs of a T line are described one by one
const FOUND = "the job is found in user mode";

/** A number with at most two decimals, and with one at least.
 * @param {number} whole */
function decimal(whole) {
  const said = (Math.round(whole * 100) / 100).toString();
  return said.includes(".") ? said : said + ".0";
}

/** What a T line shows.
 * @param {Exchange} exchange */
function ticksSaid(exchange) {
  const runs = runsOf(exchange), slot = "slot " + octal(number(wordsOf(exchange)[1]));
  if (runs.length <= RUNS) return slot + ": " + runs.map(([count, letter]) => countOf(count, ...TICKS[letter])).join(", then ");
  const total = runs.reduce((sum, [count]) => sum + count, 0), sums = Object.keys(TICKS).map(letter =>
    countOf(runs.reduce((sum, [count, one]) => sum + (one === letter ? count : 0), 0), ...TICKS[letter]));
  return slot + ", " + countOf(total, "tick") + " in all: " + sums.filter(said => !said.startsWith("0 ")).join(", ");
}

/** The symbol nearest below the PC, if an S line has one.
 * @param {Record<string, string>} state */
export function symbolIn(state) {
  if ((state.symbol || "-") === "-") return "";
  return " (" + sixbit(state.symbol) + (state.past === "0" ? "" : "+" + state.past) + ")";
}

/** A P line: how far a job is inside a call.
 * @param {string[]} words */
export function frameSaid(words) {
  const peek = peekOf(words);
  if (peek.state === "USER") return ["in user mode, in no call"];
  const name = callName(peek.call), call = peek.call === "-" ? "" : name + ": ";
  const waits = peek.state === "WAITING" && WAITS[name] ? " " + WAITS[name] : "";
  const said = [call + (STATES[peek.state] || "?") + waits + " (" + peek.state + "); " + countOf(peek.left, "step") + " to user mode"];
  if (name === "SIOT" && peek.a !== "-") {
    const pointer = bytePointer(peek.a);
    said.push("core has the pointer " + peek.a + (pointer ? " (" + pointer + ")" : "") + " and the count " + short(peek.b));
  } else if (peek.a !== "-") {
    const told = reading(peek.a);
    said.push("core has the argument " + peek.a + (told ? " (" + told + ")" : ""));
  }
  if (peek.held !== "-") {
    const what = held(peek.held, peek.a);
    said.push(isOctal(what[0]) ? "it holds the word " + what : "it holds the byte " + what + " (" + short(peek.held) + ")");
  }
  return said;
}

/** The addresses of the words of blocks.
 * @param {Map<number, string>} loaded */
function wordsInBlocks(loaded) {
  return new Set([...blocksOf(loaded).values()].flatMap(({address, words}) => [address, address + 1, ...words]));
}

/** What a word that is loaded may be: a name, or an instruction as the assembler writes it; nothing if it is likelier something else.
 * @param {string} word
 * @param {boolean} isInBlock it is a word of a block */
function loadedSaid(word, isInBlock) {
  if (CALLS[word]) return "the name " + CALLS[word];
  const text = callText(word);
  if (text || isInBlock && !NAMES.has(sixbit(word))) return isInBlock ? "" : text;
  return reading(word) ? NAMES.has(sixbit(word)) ? "the name " + sixbit(word) : "" : nameOf(bits(word, 0, 8)) ? typeOut(word) : "";
}

/** What each line says, by its kind.
 * @type {Record<string, (exchange: Exchange, known: Known) => string[]>} */
const SAYS = {
  ...STATE_SAYS,

  VERSION: ({line}) => [line.version === 2 ? "96 jobs, read-only pages and symbols" : "what holds without this line too"],

  LOAD(exchange, known) {
    const [, user, job, console] = exchange.line.words, slot = number(wordsOf(exchange)[1]);
    known.begin(slot);
    return ["a job " + user + " " + job + " is made in slot " + octal(slot) + ", " +
            (console === "-" ? "without a console" : "with console " + console)];
  },

  "a/"({line}, known) {
    const first = number(line.words[0].slice(0, -1)), words = line.words.slice(1).map(twelve);
    words.forEach((word, at) => known.loaded.set(first + at, word));
    const inBlocks = wordsInBlocks(known.image.size ? known.image : known.loaded);
    const said = words.map((word, at) => {
      const told = loadedSaid(word, inBlocks.has(first + at));
      return told && octal(first + at) + ": " + told;
    });
    return said.some(Boolean) ? [said.filter(Boolean).join("; ")] : [];
  },

  RO({line}, known) {
    const page = number(line.words[1]), first = page * 1024;
    return ["page " + octal(page) + " (addresses " + octal(first) + " to " + octal(first + 0o1777) + ") of slot " + octal(known.slot) +
            " becomes read only"];
  },

  SYM({line}, known) {
    const name = tagSaid(line.words[1]), [, , address] = line.words;
    known.symbolsOf(known.slot).add(name, number(address));
    return ["STATE of slot " + octal(known.slot) + " may name " + short(address) + " for " + name];
  },

  GO({line}, known) {
    const start = line.words[1];
    known.settle();
    return ["the job in slot " + octal(known.slot) + " starts at " + short(start) + known.symbolsOf(known.slot).near(number(start)),
            ...openBlocks(known.loaded, known.symbolsOf(known.slot))];
  },

  FILE: ({line}) => ["a file " + fileOf(...namesAt(line, 1))],

  TICK: exchange => [ticksSaid(exchange)],

  RUN(exchange) {
    const turns = turnsOf(exchange);
    if (!turns.length) return ["no job runs: nobody has a turn"];
    const said = turns.slice(0, RUNS).map(ticksSaid);
    if (turns.length > RUNS) said.push("and " + countOf(turns.length - RUNS, "turn") + " more");
    if (turns.length < number(exchange.line.words[1])) said.push("it ends early: no job runs then");
    return said;
  },

  TYPE(exchange) {
    const words = exchange.line.words, dropped = number(wordsOf(exchange)[2]);
    return ["console " + words[1] + " gets " + typed(words.slice(2)) +
            (dropped ? "; " + countOf(dropped, "byte is", "bytes are") + " dropped, because it keeps 64 at most" : "")];
  },

  DRAIN(exchange) {
    const words = wordsOf(exchange), taken = words.slice(2);
    return ["console " + words[1] + " had put out " + (taken.length ? typed(taken) : "nothing more")];
  },

  CLOCK({line}, known) {
    known.clock += number(line.words[1]);
    return ["the clock reaches " + octal(known.clock) + " thirtieths of a second, " + decimal(known.clock / 30) + " seconds in decimal"];
  },

  INT({line}) {
    const [, slot, one, two] = line.words, names = pendingNames(one);
    return ["slot " + slot + " gets the bits " + (names.length ? names.join(" ") : "0") + " in word 1 of its pending bits, " + short(two) +
            " in word 2; found in user mode"];
  },

  EXAM(exchange, known) {
    const words = wordsOf(exchange), slot = number(words[1]), first = number(words[2]);
    return [FOUND, ...words.slice(3).map((word, at) => {
      const error = known.getsErrors(slot, first + at) && ERRORS[number(word)];
      const told = error ? "as an error number: " + error : reading(word);
      return octal(first + at).padStart(6, "0") + known.symbolsOf(slot).near(first + at) + " holds " + word + (told ? ": " + told : "");
    })];
  },

  LIST(exchange, known) {
    const symbols = known.symbolsOf(number(wordsOf(exchange)[1]));
    return [FOUND, ...(symbols.values.size ? exchange.answer : []).map(one => {
      const [, , place, ...text] = one.split(" ");
      return place + symbols.near(number(place)) + ": " + symbols.typed(text.join(" "));
    })];
  },

  STATE(exchange) {
    const state = stateOf(wordsOf(exchange)), flags = flagsOf(state.pc);
    const said = ["job " + sixbit(state.user) + " " + sixbit(state.job) + ", " +
      (state.superior === "-" ? "no superior" : "its superior is slot " + state.superior) + ", " +
      (state.console === "-" ? "no console" : "console " + state.console) + "; found in user mode"];
    said.push((state.run === "RUN" ? "it runs" : "it is stopped") + ", PC " + pcOf(state.pc) + symbolIn(state) + ", " +
              (flags.length ? "flags: " + flags.join(", ") : "no flag on"));
    for (const [name, key] of [["pending", "pending"], ["mask", "mask"], ["deferred", "defer"]]) {
      said.push(...bitsInWords(name, state[key + "1"], state[key + "2"]));
    }
    return said;
  },

  DEPOSIT({line}, known) {
    const [, slot, place, word] = line.words, told = reading(twelve(word)), near = known.symbolsOf(number(slot)).near(number(place));
    return ["the word at " + short(place) + near + " of slot " + slot + " becomes " + short(word) + (told ? " (" + told + ")" : "") +
            "; " + FOUND];
  },

  STOP: ({line}) => ["the job in slot " + line.words[1] + " is stopped, in user mode"],

  CONT: ({line}) => ["the job in slot " + line.words[1] + " may run, and its fatal pending bits are cleared; found in user mode"],

  PEEK: exchange => [...frameSaid(wordsOf(exchange)), "nothing is disturbed"],

  DIR(exchange) {
    const words = wordsOf(exchange);
    return [countOf(number(words[2]), "file") + " in directory " + sixbit(words[1]), ...exchange.answer.slice(1).map(one => {
      const [, first, second, size] = one.split(" ");
      return sixbit(first) + " " + sixbit(second) + ", " + countOf(number(size), "word");
    })];
  },

  SHOW(exchange) {
    const [, directory, one, two, size] = wordsOf(exchange);
    const said = ["the file " + fileOf(sixbit(directory), sixbit(one), sixbit(two)) + ", " + countOf(number(size), "word")];
    exchange.answer.slice(1).flatMap(row => row.split(" ").slice(1)).forEach((word, at) => {
      const told = reading(word);
      if (told) said.push("word " + octal(at) + ", " + word + ": " + told);
    });
    return said;
  }
};

/** What a line that is not refused does, and what its answer says. What it shows is noted in `known`.
 * @param {Exchange} exchange
 * @param {Known} known */
export function meaningOf(exchange, known) {
  const says = SAYS[exchange.line.kind];
  return says ? says(exchange, known) : [];
}
