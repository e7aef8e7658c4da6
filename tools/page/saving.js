// The page: the lines of a session up to a moment, of which the program saves the system.

import {octal, value} from "../lib/words.js";

/** @typedef {import("../lib/transcript.js").Exchange} Exchange */
/** @typedef {import("./outline.js").Moment} Moment */

/** The lines of a session up to a moment. A RUN line stays one as far as it can, because the next RUN goes on after the slot of its last turn: its
 * whole turns, and then one with the ticks so far. A refused line is left out.
 * @param {Exchange[]} told
 * @param {Moment[]} moments
 * @param {number} asked
 * @returns {string[]} */
export function linesUntil(told, moments, asked) {
  const at = moments[asked].refused ? asked - 1 : asked, {line: number} = moments[at], own = told.find(({line}) => line.number === number);
  const before = told.filter(({line}) => line.number < number).map(({line}) => line.text);
  if (!own) return before;
  const {kind, words, text} = own.line, ticks = moments.slice(0, at + 1).filter(moment => moment.line === number).length;
  if (kind === "TICK") return [...before, "TICK " + words[1] + " " + octal(ticks)];
  if (kind !== "RUN") return [...before, text];
  const turns = Math.floor(ticks / value(words[2])), rest = ticks % value(words[2]);
  return [...before, ...(turns ? ["RUN " + octal(turns) + " " + words[2]] : []), ...(rest ? ["RUN 1 " + octal(rest)] : [])];
}
