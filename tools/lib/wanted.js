// Shared by the page and the commands: whether a line of a session shows what a check asks for, and how it differs, in words.

import {bytesWanted, wordsWanted} from "./checking.js";
import {wordsIn} from "./session.js";
import {stateOf, wordsOf} from "./transcript.js";
import {FATAL, PENDING, Wrong, asciiOf, countOf, counted, isOctal, number, octal, pcOf, pendingNames, short, sixbit, typed, value} from "./words.js";

/** @typedef {import("./checking.js").Want} Want */
/** @typedef {import("./transcript.js").Exchange} Exchange */

/** A comment that asks for nothing that its line can show.
 * @param {string} said
 * @param {string} form */
function noForm(said, form) { return new Wrong("`;= " + said + "` is not " + form); }

/** How a console differs.
 * @param {Exchange} exchange
 * @param {string} said */
function drained(exchange, said) {
  const found = wordsOf(exchange).slice(2), wanted = bytesWanted(said);
  if (!wanted) throw noForm(said, 'bytes: "text" and octal numbers');
  if (found.join(" ") === wanted.join(" ")) return "";
  const at = wanted.findIndex((byte, index) => byte !== found[index]), place = at < 0 ? wanted.length : at;
  const first = found.length <= place ? "the output ends after " + counted(found.length) + " of " + countOf(wanted.length, "byte") :
    wanted.length <= place ? "there is more than that" : "byte " + counted(place + 1) + " is the first that differs";
  return "console " + exchange.line.words[1] + " shows " + typed(found) + ", and has to show " + typed(wanted) + ": " + first;
}

/** A word, with its text if it may be one of two letters or more.
 * @param {string} word */
function withText(word) {
  const text = asciiOf(word);
  return short(word) + (text.length > 3 ? " (" + text + ")" : "");
}

/** How words differ.
 * @param {string[]} found
 * @param {string} said
 * @param {(at: number) => string} place what the word at this place is called
 * @param {string} whole what all of them are called */
function wordsDiffer(found, said, place, whole) {
  const wanted = wordsWanted(said);
  if (!wanted) throw noForm(said, "words: octal numbers, -5, l,,r or *");
  const at = wanted.findIndex((word, index) => index < found.length && word !== "*" && word !== found[index]);
  if (at >= 0) return place(at) + " is " + withText(found[at]) + ", and has to be " + withText(wanted[at]);
  if (found.length === wanted.length) return "";
  return whole + " has " + countOf(found.length, "word") + ", and has to have " + counted(wanted.length);
}

/** How the words of a job differ. `tail` is the line as the check has it, perhaps with symbols.
 * @param {Exchange} exchange
 * @param {string} said
 * @param {string} tail */
function looked(exchange, said, tail) {
  const found = exchange.answer.flatMap(line => line.split(" ").slice(3)), symbol = wordsIn(tail)[2], first = number(exchange.line.words[2]);
  const named = (/** @type {number} */ at) => isOctal(symbol) ? "" : " (" + symbol + (at ? "+" + octal(at) : "") + ")";
  return wordsDiffer(found, said, at => "the word at " + octal(first + at) + named(at), "this line");
}

/** How the words of a file differ.
 * @param {Exchange} exchange
 * @param {string} said */
function shownFile(exchange, said) {
  const [, directory, one, two] = exchange.line.words, file = "the file " + one + " " + two + " of directory " + directory;
  const found = exchange.answer.slice(1).flatMap(line => line.split(" ").slice(1));
  return wordsDiffer(found, said, at => "word " + (at + 1) + " of " + file, file);
}

/** How the files of a directory differ: `A IN 3, A OUT 5`.
 * @param {Exchange} exchange
 * @param {string} said */
function listed(exchange, said) {
  const found = exchange.answer.slice(1).map(line => line.split(" ")).map(([, one, two, count]) => sixbit(one) + " " + sixbit(two) + " " + count);
  const wanted = said.split(",").map(one => wordsIn(one).join(" ")).filter(Boolean);
  if (found.join() === wanted.join()) return "";
  return "directory " + exchange.line.words[1] + " has " + (found.join(", ") || "no file") + ", and has to have " + (wanted.join(", ") || "none");
}

/** How the registers of a job differ: RUN or STOP, the names of pending bits, and after `at` an address or a symbol.
 * @param {Exchange} exchange
 * @param {string} said
 * @param {Map<string, number>} symbols of the job */
function stateDiffers(exchange, said, symbols) {
  const state = stateOf(wordsOf(exchange)), [words, place] = said.split(/ *\bat /), wanted = wordsIn(words);
  const bits = wanted.filter(word => PENDING.some(([, name]) => name === word)), runs = wanted.filter(word => ["RUN", "STOP"].includes(word));
  if (bits.length + runs.length < wanted.length || !said) throw noForm(said, "RUN or STOP, pending bits, and `at` with an address");
  const [name, more] = (place || "").split("+"), at = isOctal(name) ? number(name) : symbols.get(name);
  if (place && at === undefined) return "the job has no symbol " + name;
  const isAt = !place || value(pcOf(state.pc)) === (at || 0) + value(more || "0");
  const found = pendingNames(state.pending1), fatal = found.filter(one => PENDING.some(([bit, name]) => name === one && bit <= FATAL));
  const isBits = !bits.length || bits.every(bit => found.includes(bit)) && fatal.every(bit => bits.includes(bit));
  if (isAt && isBits && runs.every(one => one === state.run)) return "";
  return "the job is not as it has to be: " + (runs[0] === "STOP" ? "stopped " : runs[0] === "RUN" ? "running " : "") +
    (bits.length ? "with " + bits.join(" ") + " pending " : "") + (place ? "at " + place : "");
}

/** How the last tick differs from the letters that it may have.
 * @param {Exchange} exchange
 * @param {string} said */
function ticked(exchange, said) {
  if (!/^[*.w-]+$/.test(said)) throw noForm(said, "letters of ticks: * . w -");
  const letter = wordsOf(exchange).slice(-1)[0].slice(-1);
  if (said.includes(letter)) return "";
  const wanted = said === "w" ? "the call of the job has to wait at the end of this line" :
    said === "-" ? "the job has to be stopped at the end of this line" : "the last tick has to be one of `" + said + "`";
  return wanted + ", and its last tick is `" + letter + "`";
}

/** How a line differs from what is wanted; nothing if it does not.
 * @param {Exchange} exchange
 * @param {Want} want
 * @param {string} tail the line as the check has it
 * @param {Map<string, number>} symbols of the job that it names */
export function differs(exchange, want, tail, symbols) {
  switch (exchange.line.kind) {
    case "DRAIN": return drained(exchange, want.text);
    case "EXAM": return looked(exchange, want.text, tail);
    case "SHOW": return shownFile(exchange, want.text);
    case "DIR": return listed(exchange, want.text);
    case "STATE": return stateDiffers(exchange, want.text, symbols).trimEnd();
    default: return ticked(exchange, want.text);
  }
}
