// Shared by the page and the commands: macros of a MIDAS text: how DEFINE is read, and what a call gives.

import {found} from "./lexer.js";
import {SIGNIFICANT} from "./known.js";
import {Refused} from "./tree.js";

/** @typedef {import("./characters.js").Piece} Piece */

/** A name in a macro in the place of an argument, and what it is if the argument is not given.
 * @typedef {{name: string, otherwise: string}} Dummy */

/** A macro: its dummies, and its text, in which numbers are in the place of dummies.
 * @typedef {{name: string, dummies: Dummy[], parts: (string | number)[]}} Macro */

const BLANKS = /[ \t\f]*/y;
const NAME = /[A-Za-z0-9.$%]+/y;
const WORD_OR_OTHER = /[A-Za-z0-9.$%]+|;[^\n]*|[^A-Za-z0-9.$%;]+/g;

/** The first position from here on that is no blank.
 * @param {string} text
 * @param {number} at */
export function pastBlanks(text, at) { return at + found(BLANKS, text, at).length; }

/** What counts of a name.
 * @param {string} written */
export function significant(written) { return written.toUpperCase().slice(0, SIGNIFICANT); }

/** The position of the bracket that closes this one. Brackets in comments and texts count, as in MIDAS.
 * @param {Piece} piece
 * @param {number} opening */
export function closingOf(piece, opening) {
  let depth = 0;
  for (let at = opening; at < piece.text.length; at += 1) {
    if (piece.text[at] === "[") depth += 1;
    if (piece.text[at] === "]") depth -= 1;
    if (depth === 0) return at;
  }
  throw new Refused(piece.place(opening), "this [ has no ] after it");
}

/** The first position from here on that ends an argument. Brackets protect what is in them.
 * @param {string} text
 * @param {number} from */
function endOfArgument(text, from) {
  let depth = 0, at = from;
  for (; at < text.length && text[at] !== "\n" && text[at] !== ";"; at += 1) {
    if (depth === 0 && ",?])>".includes(text[at])) break;
    if ("[(<".includes(text[at])) depth += 1;
    if ("])>".includes(text[at])) depth -= 1;
  }
  return at;
}

/** Takes an argument: its text, whether it is given, and whether a comma is after it. An argument in brackets is what is in them.
 * @param {Piece} piece */
export function takeArgument(piece) {
  const text = piece.text, from = pastBlanks(text, piece.position), inBrackets = text[from] === "[";
  const end = inBrackets ? closingOf(piece, from) : endOfArgument(text, from);
  const argument = inBrackets ? text.slice(from + 1, end) : text.slice(from, end).trimEnd();
  piece.skipTo(inBrackets ? pastBlanks(text, end + 1) : end);
  const next = text[piece.position] || "\n", comma = next === ",";
  if (!"\n;,?])>".includes(next)) {
    throw new Refused(piece.place(piece.position), next + " is left over after an argument in brackets");
  }
  if (comma) piece.skipTo(piece.position + 1);
  return {text: argument, given: inBrackets || argument !== "", comma};
}

/** The dummies of a line of DEFINE, after the name of the macro.
 * @param {Piece} piece
 * @returns {Dummy[]} */
function takeDummies(piece) {
  const text = piece.text;
  /** @type {Dummy[]} */
  const dummies = [];
  for (;;) {
    const at = pastBlanks(text, piece.position), written = found(NAME, text, at);
    piece.skipTo(at);
    if (at >= text.length || text[at] === "\n" || text[at] === ";") return dummies;
    if (!written && !(text[at] === "," && dummies.length)) {
      throw new Refused(piece.place(at), "the line of DEFINE has names with commas between them; " + text[at] + " is not understood");
    }
    piece.skipTo(at + (written.length || 1));
    if (!written) continue;
    const dummy = {name: significant(written), otherwise: ""};
    if (text[piece.position] === "=") {
      piece.skipTo(piece.position + 1);
      const value = takeArgument(piece);
      dummy.otherwise = value.text;
    }
    dummies.push(dummy);
  }
}

/** The text of a macro up to its TERMIN, with numbers in the place of dummies. A ! beside a dummy only keeps it from other characters.
 * @param {string} body
 * @param {Dummy[]} dummies
 * @returns {(string | number)[]} */
function partsOf(body, dummies) {
  /** @type {(string | number)[]} */
  const parts = [""];
  for (const [written] of body.matchAll(WORD_OR_OTHER)) {
    const which = dummies.findIndex(dummy => dummy.name === significant(written)), last = parts[parts.length - 1];
    if (which >= 0) {
      if (typeof last === "string" && last.endsWith("!")) parts[parts.length - 1] = last.slice(0, -1);
      parts.push(which, "");
    } else if (last === "" && parts.length > 1) parts[parts.length - 1] = written.replace(/^!/, "");
    else parts[parts.length - 1] = last + written;
  }
  return parts;
}

/** Takes a macro, after the word DEFINE, up to its TERMIN. A DEFINE in its text has its own TERMIN.
 * @param {Piece} piece
 * @param {import("./tree.js").Place} at
 * @returns {Macro} */
export function takeMacro(piece, at) {
  const from = pastBlanks(piece.text, piece.position), name = found(NAME, piece.text, from);
  if (!name || !/[A-Za-z$%.]/.test(name)) throw new Refused(piece.place(from), "the name of a macro is wanted after DEFINE");
  piece.skipTo(from + name.length);
  const dummies = takeDummies(piece), line = piece.text.indexOf("\n", piece.position);
  let depth = 1;
  if (line >= 0) {
    for (const match of piece.text.slice(line + 1).matchAll(WORD_OR_OTHER)) {
      const word = significant(match[0]), start = line + 1 + (match.index || 0);
      if (word === "DEFINE" || /^IRP(C|S|W|NC)?$/.test(word)) depth += 1;
      if (word === "TERMIN") depth -= 1;
      if (depth) continue;
      const parts = partsOf(piece.text.slice(line + 1, start), dummies);
      piece.skipTo(start + match[0].length);
      return {name: significant(name), dummies, parts};
    }
  }
  throw new Refused(at, "this DEFINE has no TERMIN after it");
}

/** Takes the arguments of a call, and gives the text of the macro with them.
 * @param {Piece} piece
 * @param {Macro} macro
 * @param {import("./tree.js").Place} at */
export function takeCall(piece, macro, at) {
  const many = macro.dummies.length, inParentheses = many > 0 && piece.text[piece.position] === "(";
  if (inParentheses) piece.skipTo(piece.position + 1);
  let more = many > 0;
  const values = macro.dummies.map(dummy => {
    if (!more) return dummy.otherwise;
    const argument = takeArgument(piece);
    more = argument.comma;
    return argument.given ? argument.text : dummy.otherwise;
  });
  if (more) throw new Refused(at, macro.name + " takes " + many + (many === 1 ? " argument" : " arguments") + ", and more are here");
  if (inParentheses) {
    if (piece.text[piece.position] !== ")") throw new Refused(at, "the arguments of " + macro.name + " begin with ( and have no ) on their line");
    piece.skipTo(piece.position + 1);
  }
  const text = macro.parts.map(part => typeof part === "number" ? values[part] : part).join("");
  return /^[ \t\f]*(;|\n|$)/.test(piece.text.slice(piece.position).split("\n", 1)[0]) ? text.replace(/\n$/, "") : text;
}
