// Shared by the page and the commands: the listing of an assembly text: location, word and line, then the literals and the symbols.

import {warningsOf} from "./asm_causes.js";
import {consoleSaid, sourceOf} from "./assembled.js";
import {numberOf, shown} from "./told.js";
import {Wrong, countOf, octal} from "./words.js";

/** @typedef {import("./assembled.js").Assembled} Assembled */

/** A location, six digits.
 * @param {number} location */
function six(location) { return octal(location).padStart(6, "0"); }

/** Each line of the text, with location and word if it gives one.
 * @param {Assembled} made */
function linesOfText({reading, words}) {
  return reading.lines.map(line => {
    const place = line.givesWord ? six(line.location) + "  " + words.get(line.location) : " ".repeat(20);
    return (place + "  " + numberOf(line.number) + "  " + shown(line.text)).trimEnd();
  });
}

/** The literals.
 * @param {Assembled} made */
function literalsOfText({reading, words}) {
  return reading.literals.map((literal, at) =>
    six(reading.base + at) + "  " + words.get(reading.base + at) + "  " + numberOf(literal.line) + "  [" + literal.text + "]");
}

/** The symbols, in the order of their values.
 * @param {Assembled} made */
function symbolsOfText({reading, symbols}) {
  const ordered = [...symbols].sort((one, other) => one[1] - other[1] || (one[0] < other[0] ? -1 : 1));
  return ordered.map(([name, value]) => six(value) + "  " + name.padEnd(6) + "        " + numberOf(reading.defined.get(name) || 0));
}

/** Whether the reading of a text has the locations and the symbols that the program has made.
 * @param {Assembled} made */
function isAsRead({reading, words, symbols}) {
  const own = new Set([...reading.given.keys(), ...reading.literals.map((_, at) => reading.base + at)]);
  return own.size === words.size && [...words.keys()].every(at => own.has(at)) &&
    reading.symbols.size === symbols.size && [...symbols].every(([name, value]) => reading.symbols.get(name) === value);
}

/** The listing of a text that is assembled.
 * @param {string} name
 * @param {Assembled} made
 * @returns {string[]} */
export function listingOf(name, made) {
  if (!isAsRead(made)) throw new Wrong(name + ": this tool reads other locations than the program has made");
  const out = ["location  word                 line  text", ...linesOfText(made)];
  if (made.reading.literals.length) out.push("", "Literals, with the line of their first use", ...literalsOfText(made));
  if (made.symbols.size) out.push("", "Symbols, with the line that defines them", ...symbolsOfText(made));
  out.push("", "job " + made.job[0] + " " + made.job[1] + ", " + consoleSaid(made) + "; " + countOf(made.words.size, "word") + "; it starts at " +
           six(made.start) + ", at " + sourceOf(made, made.start));
  return [...out, ...warningsOf(made.reading).map(warning => "warning: " + warning)];
}
