// A command: makes a page that opens a session, on standard output.

import path from "node:path";

import {Words, command, textOf, write} from "../lib/node/command.js";
import {packedPage} from "../lib/node/page.js";
import {MOST_MOMENTS, momentsOfLine} from "../lib/counting.js";
import {atLine, joined, linesOf} from "../lib/session.js";
import {Wrong, countOf, counted, isOctal, octal, value} from "../lib/words.js";

/** @typedef {import("../lib/session.js").Line} Line */

const ABOUT = `
Makes a page that opens a session, on standard output: one steps through it in a browser, tick by tick.

    tools/player sessions/echo.its > echo.html
    tools/player --to 400 long.its > beginning.html

The page is docs/its.html with the session in it. It has the proved program as a WebAssembly module, so it runs the session itself; it needs
nothing else, and opens from a file, without a network. At each tick it shows where each job is in its call, and by "Look here" what
somebody would find who stops the job just then and looks. The words that --look names are shown of each job, too.

A page steps through 20000 moments (ticks and lines, in decimal) at most. Of a longer session --from and --to take a part: its lines alone,
and a VERSION line before them. This part is the session of the page, and runs from nothing: so a part that begins later has to make its jobs itself.

Wrong input gives one line on standard error and status 1; so does a session with too many moments, and a part that begins or ends inside a
block.
`;

const WORDS = new Words("player", ABOUT, [
  {name: "--look", takes: "A,N", many: true, about: "show also N words from address A of each job, in octal; may be given more than once"},
  {name: "--from", takes: "LINE", whole: true, otherwise: 1, about: "the first line that is taken, in decimal (1)"},
  {name: "--to", takes: "LINE", whole: true, otherwise: null, about: "the last line that is taken, in decimal (the last of all)"},
  {name: "SESSION", about: "a session"}]);

const MOST_LOOKED = 0o100;        // words of one --look

/** The addresses of `--look A,N`: from A on N, in octal; one, if N is not given.
 * @param {string} words */
export function watched(words) {
  const parts = words.split(",");
  if (parts.length > 2 || !parts.every(isOctal)) {
    throw new Wrong("--look " + words + ": it takes an address and a number of words, A,N, in octal");
  }
  const [start, count] = [value(parts[0]), parts.length > 1 ? value(parts[1]) : 1];
  if (count < 1 || count > MOST_LOOKED || start + count > 0o1000000) {
    throw new Wrong("--look " + words + ": it takes 1 to " + octal(MOST_LOOKED) + " words, up to address 777777");
  }
  return Array.from({length: count}, (_, at) => start + at);
}

/** The lines of a session from a first to a last one, in decimal, and before them a VERSION line, if it has one or a SYSTEM line. The end of
 * the input is no line.
 * @param {string} name
 * @param {Line[]} lines
 * @param {number} first
 * @param {number} last */
function part(name, lines, first, last) {
  if (first < 1 || last < first || first >= lines.length) {
    throw new Wrong(name + ": --from and --to take a first and a last line, in decimal, and its lines are 1 to " + counted(lines.length - 1));
  }
  const some = lines.slice(first - 1, Math.min(last, lines.length - 1)), behind = lines[first - 1 + some.length];
  const inBlock = (/** @type {Line} */ line, /** @type {string} */ said) => new Wrong(
    name + ": the part " + said + " inside the block of " + line.block + " that " + atLine(line.since) + " opens");
  if (some[0].block) throw inBlock(some[0], "begins");
  if (behind.block && !behind.ended) throw inBlock(behind, "ends");
  const isGiven = first > 1 && ["VERSION", "SYSTEM"].includes(lines[0].kind);
  return [...(isGiven ? [{...lines[0], text: lines[0].text.replace("SYSTEM", "VERSION")}] : []), ...some];
}

/** Complains of lines that one cannot step through.
 * @param {string} name
 * @param {Line[]} lines
 * @param {boolean} isPart */
function check(name, lines, isPart) {
  if (!lines.some(line => line.kind)) throw new Wrong(name + ": there is nothing to show: it has no line that is no comment");
  let count = 0, past = null;
  for (const line of lines) {
    count += momentsOfLine(line);
    if (count > MOST_MOMENTS && !past) past = line;
  }
  if (past) {
    throw new Wrong(name + ": one steps through " + countOf(MOST_MOMENTS, "moment") + " at most, and its lines have up to " + counted(count) +
                    ", more than that from " + atLine(past.number) + " on; let TICK and RUN lines make fewer ticks, or take a " +
                    (isPart ? "smaller part" : "part") + " by --from and --to");
  }
}

/** Packs the session.
 * @param {string[]} given */
export function main(given) {
  const {session: name, look, from, to} = WORDS.values(given), watch = look.flatMap(watched), isPart = from !== 1 || to !== null;
  const text = textOf(name), whole = linesOf(text), lines = isPart ? part(name, whole, from, to === null ? whole.length : to) : whole;
  check(name, lines, isPart);
  write(packedPage(path.basename(name), isPart ? joined(lines.map(line => line.text)) : text, watch));
  return 0;
}

command("player", main);
