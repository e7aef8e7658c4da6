// The page: how many turns each RUN line of a session has. A transcript does not say it; a copy of the session with a mark after each RUN
// line does.

import {joined, linesOf, split} from "../lib/session.js";
import {Transcript, takeAnswer} from "../lib/transcript.js";

/** @typedef {import("../lib/session.js").Line} Line */

const MARK = "TICK 137 1", MARKED = "T 137 1-";     // a tick of the last slot, which is empty: it changes nothing

/** The turns of each RUN line, by its number. Nothing, if the copy does not show the same.
 * @param {(session: string) => string} run
 * @param {Line[]} lines
 * @param {string} transcript
 * @returns {Map<number, number>} */
export function turnsIn(run, lines, transcript) {
  if (!lines.some(line => line.kind === "RUN") || transcript.includes("J 137\n")) return new Map();
  const copy = lines.filter(line => !line.ended).flatMap(line => line.kind === "RUN" ? [line.text, MARK] : [line.text]);
  const shown = split(run(joined(copy))), own = split(transcript), plain = shown.filter(line => line !== MARKED);
  const isRefusal = (/** @type {string} */ line) => line.startsWith("? ");
  if (plain.length !== own.length || plain.some((line, at) => line !== own[at] && !isRefusal(line))) return new Map();
  return countedTurns(linesOf(joined(copy)), shown);
}

/** The turns of each RUN line, by the marks.
 * @param {Line[]} lines of the copy
 * @param {string[]} shown its transcript */
function countedTurns(lines, shown) {
  /** @type {Map<number, number>} */
  const turns = new Map();
  const reader = new Transcript("the marked transcript", shown);
  let before = 0;                    // marks so far: the lines of the copy have higher numbers
  for (const line of lines) {
    if (line.ended || reader.refusal(line.number) || line.kind === "END") break;
    if (!["", "a/", "/"].includes(line.kind)) takeAnswer(reader, line);
    if (line.kind !== "RUN") continue;
    const end = shown.indexOf(MARKED, reader.at), after = end < 0 ? shown.length : end;
    turns.set(line.number - before, after - reader.at);
    reader.at = after;
    before += 1;
  }
  return turns;
}
