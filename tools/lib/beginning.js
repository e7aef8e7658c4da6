// Shared by the page and the commands: the lines with which a system begins, made of the images of its programs: a file for each program, from
// which the command jobs load it, and a command job for each console.

import {joined, split} from "./session.js";
import {COMMAND, CONSOLES} from "./system.js";
import {asSixbit, number, octal, twelve} from "./words.js";

const LINE_WORDS = 16;                   // a line of words has at most so many

/** What `asm` makes of a text: its words in runs of consecutive ones, its symbols and its start.
 * @typedef {{runs: {at: number, words: string[]}[], symbols: [string, number][], start: number}} Image */

/** The image in the session that `asm` writes.
 * @param {string} text
 * @returns {Image} */
export function imageOf(text) {
  /** @type {Image} */
  const image = {runs: [], symbols: [], start: 0};
  for (const [first, ...words] of split(text).map(line => line.split(" "))) {
    if (first.endsWith("/")) addWords(image, number(first.slice(0, -1)), words);
    else if (first === "SYM") image.symbols.push([words[0], number(words[1])]);
    else if (first === "GO") image.start = number(words[0]);
  }
  return image;
}

/** Adds words to the last run of an image, if they follow it.
 * @param {Image} image
 * @param {number} at
 * @param {string[]} words */
function addWords(image, at, words) {
  const last = image.runs[image.runs.length - 1];
  if (last && last.at + last.words.length === at) last.words.push(...words);
  else image.runs.push({at, words: [...words]});
}

/** The words of the file of a program: its start; each run after a word with its length and its address; 0; and each symbol, a name and a value.
 * @param {Image} image */
export function wordsOfProgram({runs, symbols, start}) {
  const halves = (/** @type {number} */ left, /** @type {number} */ right) => octal(left).padStart(6, "0") + octal(right).padStart(6, "0");
  return [halves(0, start), ...runs.flatMap(({at, words}) => [halves(words.length, at), ...words]), halves(0, 0),
          ...symbols.flatMap(([name, value]) => [asSixbit(name), halves(0, value)])];
}

/** The lines of a file.
 * @param {string} names its directory and its two names
 * @param {string[]} words */
export function fileLines(names, words) {
  const lines = [];
  for (let at = 0; at < words.length; at += LINE_WORDS) lines.push("/ " + words.slice(at, at + LINE_WORDS).map(twelve).join(" "));
  return ["FILE " + names, ...lines, "EOF"];
}

/** The lines of a job.
 * @param {Image} image
 * @param {string} names its user name and its job name
 * @param {number} console */
export function jobLines({runs, start}, names, console) {
  const lines = [];
  for (const {at, words} of runs) {
    for (let from = 0; from < words.length; from += LINE_WORDS) lines.push(octal(at + from) + "/ " + words.slice(from, from + LINE_WORDS).join(" "));
  }
  return ["LOAD " + names + " " + octal(console), ...lines, "GO " + octal(start)];
}

/** The lines of a system: its programs by their names, one of which is that of the command jobs.
 * @param {Map<string, Image>} programs */
export function systemLines(programs) {
  const names = [...programs.keys()].filter(name => name !== COMMAND).sort(), command = programs.get(COMMAND);
  const files = names.map(name => fileLines("SYS " + name + " BIN", wordsOfProgram(/** @type {Image} */ (programs.get(name)))));
  const jobs = command ? Array.from({length: CONSOLES}, (_, console) => jobLines(command, "ITS" + console + " " + COMMAND, console)) : [];
  return joined(["VERSION 2", ...files.flat(), ...fileLines("SYS PROGS LIST", names.map(asSixbit)), ...jobs.flat()]);
}

/** The lines of a system of assembly texts, by the names of their files: HACTRN is made of hactrn.asm.
 * @param {[string, string][]} texts
 * @param {(name: string, text: string) => string} assembled the session that `asm` writes for a text
 * @returns {string} */
export function systemOf(texts, assembled) {
  return systemLines(new Map(texts.map(([name, text]) => [name.replace(/^.*\/|\.asm$/g, "").toUpperCase(), imageOf(assembled(name, text))])));
}
