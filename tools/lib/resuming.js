// Shared by the page and the commands: what of a session that was broken off is whole, so that it can go on.

import {CLOSES, kindOf, wordsIn} from "./session.js";

const BAD_BYTE = /[^ -~]/;

/** The part of a text that is whole lines and whole blocks: what a host that was killed at any byte has written, without its last line or block if that
 * is torn. A line with a byte that no line has ends it: a machine that lost its power may leave zeros.
 * @param {string} text
 * @returns {string} */
export function wholeOf(text) {
  let at = 0, whole = 0, block = "";
  for (;;) {
    const end = text.indexOf("\n", at);
    if (end < 0) return text.slice(0, whole);
    const line = text.slice(at, end), kind = kindOf(wordsIn(line));
    if (BAD_BYTE.test(line)) return text.slice(0, whole);
    if (!block) block = CLOSES[kind] || "";
    else if (kind === block) block = "";
    at = end + 1;
    if (!block) whole = at;
  }
}

/** Whether the last line of a whole text is END.
 * @param {string} text */
export function hasEnded(text) { return /(^|\n) *END *\n$/.test(text); }

/** How many lines of a text have this as their first word.
 * @param {string} text
 * @param {string} kind */
export function countOfKind(text, kind) { return text.split("\n").filter(line => line.startsWith(kind + " ")).length; }
