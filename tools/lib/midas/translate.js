// Shared by the page and the commands: MIDAS, the assembler of ITS, made into a text of the assembler here (docs/MIDAS.md). The lexer makes tokens
// of characters, the reader obeys macros and conditions, the parser (expressions, statements) makes statements of tokens, the values say what a name
// and an expression are, the layout gives addresses, literals and variables their places, and the writer writes the text.

import {lineOf} from "./characters.js";
import {laidOut} from "./layout.js";
import {parsed} from "./statements.js";
import {Refused, placeAt} from "./tree.js";
import {both} from "./values.js";
import {written} from "./writer.js";

/** @typedef {import("./writer.js").Job} Job */
/** @typedef {import("./writer.js").Made} Made */

/** What a job is named if nobody says it. */
export const JOB = {user: "U", job: "", console: "0"};

/** The text that a MIDAS text gives, with its words; Refused says where and why there is none. `insert` reads files for .INSRT.
 * @param {string} source
 * @param {string} name
 * @param {Job} [job]
 * @param {import("./pieces.js").Insert} [insert]
 * @returns {Made} */
export function translate(source, name, job = JOB, insert = undefined) {
  try {
    return written(laidOut(parsed(source, insert)), name, job);
  } catch (problem) {
    if (problem instanceof RangeError) throw new Refused(placeAt(1, 1), "somewhere brackets or sums are nested too deep");
    throw problem;
  }
}

/** A refusal for a reader: the line, the cause, the text of the line, and a caret at the place.
 * @param {string} name
 * @param {string} source the text, or that of the file that the place names
 * @param {Refused} problem */
export function refusalOf(name, source, problem) {
  const {at, cause} = problem, [text, column] = lineOf(source, at);
  return "midas: " + (at.file || name) + ", line " + both(at.line) + ", column " + (column + 1) + ": " + cause + "\n  " + text + "\n  " +
    " ".repeat(column) + "^\n";
}
