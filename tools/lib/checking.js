// Shared by the page and the commands: a check of a task: a tail of a session in which comments say what the lines before them have to show
// (labs/README.md, "A check").

import {WAYS} from "./disturbing.js";
import {atLine, kindOf, split, wordsIn} from "./session.js";
import {Wrong, isOctal, number, octal, twelve} from "./words.js";

/** What a line of a tail has to show: the place of the line and of the comment that says it, from 1; the comment; and what helps if it is not
 * shown.
 * @typedef {{line: number, at: number, text: string, help: string}} Want */

/** A way to disturb a job: its name, and the lines that do it, with `s` for the slot.
 * @typedef {{name: string, lines: string[]}} Way */

/** A check: the texts of its jobs by slot, of which `*` is the one that is graded; the slots that are disturbed, and how.
 * @typedef {{file: string, name: string, isPublic: boolean, jobs: string[], slots: number[], ways: Way[], tail: string, wants: Want[]}} Check */

/** What a comment of a check may follow. */
export const SHOWN = ["DRAIN", "EXAM", "SHOW", "DIR", "STATE", "TICK"];

/** The ways that a line `; Disturb:` names, with commas between them.
 * @param {string} said
 * @returns {Way[]} */
function waysOf(said) {
  return said.split(",").map(one => one.trim()).filter(Boolean).map(name => ({name: name === "STOP" ? "STOP and CONT" : name, lines: WAYS[name.toLowerCase()] || [name]}));
}

/** A check from its text.
 * @param {string} file its name
 * @param {string} text
 * @param {boolean} isPublic
 * @returns {Check} */
export function checkOf(file, text, isPublic) {
  /** @type {Check} */
  const check = {file, name: file, isPublic, jobs: ["*"], slots: [0], ways: [], tail: text, wants: []};
  let last = 0;
  split(text).forEach((line, index) => {
    const [, head, said] = /^; (Check|Jobs|Slots|Disturb): *(.*?) *$/.exec(line) || [], at = index + 1;
    if (head === "Check") check.name = said;
    else if (head === "Jobs") check.jobs = wordsIn(said);
    else if (head === "Slots") check.slots = wordsIn(said).map(number);
    else if (head === "Disturb") check.ways = waysOf(said);
    else if (line.startsWith(";=")) check.wants.push(wantOf(file, split(text), last, at));
    else if (line.startsWith(";!")) helped(file, check, at, line.slice(2).trim());
    else if (kindOf(wordsIn(line))) last = at;
  });
  if (!check.wants.length) throw new Wrong(file + ": no line `;=` says what has to be shown");
  return check;
}

/** What a comment `;=` asks for.
 * @param {string} file
 * @param {string[]} lines
 * @param {number} line the line before it
 * @param {number} at
 * @returns {Want} */
function wantOf(file, lines, line, at) {
  const kind = line ? kindOf(wordsIn(lines[line - 1])) : "";
  if (!SHOWN.includes(kind)) throw new Wrong(file + ", " + atLine(at) + ": `;=` is after a line of " + SHOWN.join(", "));
  return {line, at, text: lines[at - 1].slice(2).trim(), help: ""};
}

/** Takes a comment `;!`, which helps if what the comment before it asks for is not shown.
 * @param {string} file
 * @param {Check} check
 * @param {number} at
 * @param {string} said */
function helped(file, check, at, said) {
  const want = check.wants[check.wants.length - 1];
  if (!want) throw new Wrong(file + ", " + atLine(at) + ": `;!` is after a line `;=`");
  want.help = (want.help + " " + said).trim();
}

/** The bytes that a comment after DRAIN asks for: text in quotes, and other bytes in octal.
 * @param {string} said
 * @returns {string[] | null} */
export function bytesWanted(said) {
  const parts = said.match(/"[^"]*"|[0-7]+|\S+/g) || [];
  if (parts.some(part => !/^"[^"]*"$/.test(part) && !isOctal(part))) return null;
  return parts.flatMap(part => isOctal(part) ? [octal(number(part))] : [...part.slice(1, -1)].map(one => octal(one.charCodeAt(0))));
}

/** The words that a comment after EXAM or SHOW asks for: octal numbers, `-5`, `l,,r`, and `*` for any word.
 * @param {string} said
 * @returns {string[] | null} */
export function wordsWanted(said) {
  const words = wordsIn(said).map(wordOf);
  return words.every(Boolean) ? words : null;
}

/** A word of 12 digits from its short form; nothing if it is none.
 * @param {string} said
 * @returns {string} */
export function wordOf(said) {
  const [, left, right] = /^([0-7]{1,6}),,([0-7]{1,6})$/.exec(said) || [];
  if (said === "*") return "*";
  if (left) return left.padStart(6, "0") + right.padStart(6, "0");
  if (/^-[0-7]{1,12}$/.test(said)) return twelve(octal((2 ** 36 - number(said.slice(1))) % 2 ** 36));
  return isOctal(said) && said.length <= 12 ? twelve(said) : "";
}
