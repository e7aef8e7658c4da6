// Shared by the page and the commands: the ticks of a session that was run, and cutting it between two of them.

import {wordsIn} from "./session.js";
import {runsOf, turnsOf, unrolled, wordsOf} from "./transcript.js";
import {number, octal} from "./words.js";

/** @typedef {import("./transcript.js").Exchange} Exchange */

/** A tick of a session: its number, from 1 over the whole session; the TICK line that asks for it; its slot; its number in its line, from 1,
 * and how many its line asks for; its letter, and that of the next tick of its line, nothing for the last one; and the turns of the same RUN
 * line before its own, as TICK lines.
 * @typedef {{number: number, line: number, slot: number, place: number, of: number, letter: string, next: string, earlier: string[]}} Tick */

/** Which ticks are meant: from the first to the last, of one slot or of all.
 * @typedef {{first: number, last: number, slot: number | null}} Range */

/** All ticks.
 * @type {Range} */
export const ALL = {first: 1, last: Infinity, slot: null};

/** How many ticks of a range a session has that was run. No tick is built for this.
 * @param {Exchange[]} told
 * @param {Range} [range] */
export function countOfTicks(told, range = ALL) {
  let done = 0, found = 0;
  for (const exchange of unrolled(told)) {
    if (exchange.line.kind !== "TICK" || exchange.reason) continue;
    const count = runsOf(exchange).reduce((sum, [own]) => sum + own, 0);
    if (isMeant(range, exchange)) found += Math.max(0, Math.min(range.last, done + count) - Math.max(range.first, done + 1) + 1);
    done += count;
  }
  return found;
}

/** Whether the slot of a TICK line is meant.
 * @param {Range} range
 * @param {Exchange} exchange */
function isMeant(range, exchange) { return range.slot === null || range.slot === number(wordsOf(exchange)[1]); }

/** The ticks of a range of a session that was run. They are counted over the session.
 * @param {Exchange[]} told
 * @param {Range} [range]
 * @returns {Generator<Tick>} */
export function* ticksOf(told, range = ALL) {
  let done = 0, line = 0;
  /** @type {string[]} */
  let earlier = [];
  for (const exchange of unrolled(told)) {
    if (exchange.line.kind !== "TICK" || exchange.reason) continue;
    if (exchange.line.number !== line) [line, earlier] = [exchange.line.number, []];
    const runs = runsOf(exchange), of = runs.reduce((sum, [own]) => sum + own, 0);
    if (done < range.last && done + of >= range.first && isMeant(range, exchange)) {
      const letters = runs.map(([count, letter]) => letter.repeat(count)).join(""), slot = number(wordsOf(exchange)[1]);
      for (let place = Math.max(range.first - done, 1); place <= Math.min(range.last - done, of); place += 1) {
        yield {number: done + place, line, slot, place, of, letter: letters[place - 1], next: letters.slice(place, place + 1), earlier};
      }
    }
    done += of;
    earlier = [...earlier, exchange.line.text];
  }
}

/** The turns of each RUN line, as TICK lines.
 * @param {Exchange[]} told
 * @returns {Map<number, string[]>} */
export function turnsByLine(told) {
  return new Map(told.filter(({line, reason}) => line.kind === "RUN" && !reason)
    .map(exchange => [exchange.line.number, turnsOf(exchange).map(turn => turn.line.text)]));
}

/** The lines of a session up to and with a tick.
 * @param {string[]} lines
 * @param {Tick} tick */
export function linesBefore(lines, tick) {
  return [...lines.slice(0, tick.line - 1), ...tick.earlier, "TICK " + octal(tick.slot) + " " + octal(tick.place)];
}

/** The rest of a session, after a tick, if RUN lines have these turns.
 * @param {string[]} lines
 * @param {Tick} tick
 * @param {Map<number, string[]>} turns */
export function linesBehind(lines, tick, turns) {
  const rest = tick.of > tick.place ? ["TICK " + octal(tick.slot) + " " + octal(tick.of - tick.place)] : [];
  return [...rest, ...(turns.get(tick.line) || []).slice(tick.earlier.length + 1), ...lines.slice(tick.line)];
}

/** The lines of a session up to and with a tick, and those after it. Here a RUN line stays one as far as it can, because the next RUN goes on after
 * the slot of its last turn: its whole turns, a turn that the tick ends, the rest of this turn, and the turns that are left.
 * @param {string[]} lines
 * @param {Tick} tick
 * @returns {[string[], string[]]} */
export function cutAt(lines, tick) {
  const [kind, turns, share] = wordsIn(lines[tick.line - 1]), whole = tick.earlier.length;
  if (kind !== "RUN") return [linesBefore(lines, tick), linesBehind(lines, tick, new Map())];
  const run = (/** @type {number} */ count, /** @type {string} */ ticks) => count ? ["RUN " + octal(count) + " " + ticks] : [];
  const left = tick.of - tick.place, rest = left ? ["TICK " + octal(tick.slot) + " " + octal(left)] : [];
  return [[...lines.slice(0, tick.line - 1), ...run(whole, share), ...run(1, octal(tick.place))],
          [...rest, ...run(number(turns) - whole - 1, share), ...lines.slice(tick.line)]];
}
