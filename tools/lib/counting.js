// Shared by the page and the commands: how many moments, ticks and lines, a session has at most. This is known before it runs.

import {isOpenAfter} from "./session.js";
import {isOctal, value} from "./words.js";

/** @typedef {import("./session.js").Line} Line */

/** How many moments of a session one steps through at most. */
export const MOST_MOMENTS = 20000;

/** How many moments a line has at most.
 * @param {Line} line */
export function momentsOfLine(line) {
  const [one, two] = [1, 2].map(at => isOctal(line.words[at]) ? value(line.words[at]) : 0);
  if (line.kind === "TICK") return two;
  if (line.kind === "RUN") return one * two;
  return line.kind && !isOpenAfter(line) ? 1 : 0;
}

/** How many moments a session has at most, its beginning included.
 * @param {Line[]} lines */
export function momentCount(lines) { return lines.reduce((sum, line) => sum + momentsOfLine(line), 1); }
