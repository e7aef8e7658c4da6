// Shared by the page and the commands: the tail of a session: lines that follow the image of a job, in which symbols may be used as numbers.

import {isItOf} from "./alike.js";
import {NoTerm, Undefined, valueOf} from "./assembly.js";
import {formOf} from "./causes.js";
import {JOB_LINES, atLine, linesOf, split} from "./session.js";
import {Wrong, isOctal, number, octal} from "./words.js";

/** @typedef {import("./session.js").Line} Line */
/** @typedef {import("./assembled.js").Assembled} Assembled */

/** A word of a line in a number's place: what has a symbol in it becomes its value.
 * @param {string} word
 * @param {Map<string, number>} symbols
 * @param {string} where */
function plainWord(word, symbols, where) {
  if (isOctal(word) || !/^[A-Z0-9.+-]*[A-Z][A-Z0-9.+-]*$/.test(word)) return word;
  try {
    return octal(valueOf(word, symbols, 0));
  } catch (problem) {
    if (problem instanceof NoTerm) return word;
    if (!(problem instanceof Undefined)) throw problem;
    throw new Wrong(where + ": the job has no symbol " + problem.message + isItOf(problem.message, symbols.keys()));
  }
}

/** A line of a tail as the program takes it, with numbers in the place of symbols. The symbols are those of the job in the slot that the
 * line names, else those of slot 0. A slot itself is no place for a symbol.
 * @param {string} name
 * @param {Line} line
 * @param {Map<string, number>[]} bySlot */
export function plainLine(name, line, bySlot) {
  const form = formOf(line), {words} = line;
  if (!form.includes("n")) return line.text;
  const hasSlot = JOB_LINES.includes(line.kind) || line.kind === "TICK", slot = hasSlot && isOctal(words[1]) ? number(words[1]) : 0;
  const plain = words.map((word, at) => {
    const isNumber = at > (hasSlot ? 1 : 0) && form[at - 1] === "n";
    return isNumber ? plainWord(word, bySlot[slot] || new Map(), name + ", " + atLine(line.number)) : word;
  });
  return plain.every((word, at) => word === words[at]) ? line.text : plain.join(" ");
}

/** The lines that load and start a job: what the program's `asm` wrote, without VERSION and END.
 * @param {Assembled} made */
export function imageLines(made) { return split(made.session).slice(1, -1); }

/** The lines of a tail as the program takes them. A first line VERSION 2 is left out, since the images come before it.
 * @param {string} name
 * @param {string} tail
 * @param {Assembled[]} made */
export function plainTail(name, tail, made) {
  const bySlot = made.map(one => one.symbols);
  return linesOf(tail).filter(line => !line.ended).map(line =>
    line.number === 1 && line.kind === "VERSION" && line.version === 2 ? "; " + line.text : plainLine(name, line, bySlot));
}
