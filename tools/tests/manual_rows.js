// Of docs/INSTRUCTIONS.md: the rows of its tables, and what the program makes of the example of each: it is assembled, run and looked at.

import {wordOf} from "../lib/checking.js";
import {runInModule} from "../lib/node/tasks.js";
import {split} from "../lib/session.js";
import {FATAL, FLAGS, PENDING, bitNames, isOctal, number, octal} from "../lib/words.js";

const PLACES = {X: 0o200, Y: 0o201, Z: 0o202, L: 0o150}, FIRST = 0o100, MOST_UNITS = 20;
const HEAD = "| Names | What it does | Example | Before | After |";

/** The rows of the tables of the manual: the names, the example, and what is before and after it. */
export function rowsOf(text) {
  const lines = split(text), rows = [];
  lines.forEach((line, at) => {
    if (line !== HEAD) return;
    for (let next = at + 2; (lines[next] || "").startsWith("|"); next += 1) {
      const [names, , example, before, after] = lines[next].slice(2, -2).split(" | ").map(one => one.trim());
      rows.push({line: next + 1, names: names.split(" ").filter(Boolean), example: example.replace(/`/g, ""), before: parts(before), after: parts(after).join(", ")});
    }
  });
  return rows;
}

// The parts of a cell.
function parts(cell) { return cell.replace(/`/g, "").split(", ").filter(Boolean); }

// The text in which the example is at 100: accumulators and words as they are before, and flags by a JRST 2 before it.
function textOf(example, before) {
  const given = before.filter(one => one.includes("=")).map(one => one.split("=")), flags = before.filter(one => !one.includes("="));
  const word = said => wordOf(said) ? "WORD " + wordOf(said).replace(/^(.{6})(.{6})$/, "$1,,$2") : said.includes(",,") ? "WORD " + said : said;
  const left = flags.reduce((sum, name) => sum + FLAGS.find(([, one]) => one === name)[0], 0o010000);
  const own = given.map(([name, said]) => "        LOC " + (isOctal(name) ? name : octal(PLACES[name])) + "\n        " + word(said) + "\n");
  return "        JOB U T -\n" + Object.entries(PLACES).map(([name, at]) => name + " = " + octal(at) + "\n").join("") + own.join("") +
    "        LOC 160\n        WORD " + octal(left) + ",,100\n        LOC 77\n        " + (flags.length ? "JRST 2,@160" : "JRST 100") +
    "\n        " + example + "\n        LOC 2000\nR:      WORD 0\n        GO 77\n";
}

// The session of the image, in which the page of R is read only, with these lines.
function sessionOf(text, lines) {
  const output = runInModule("asm", text);
  if (output.startsWith("?")) return "";
  const image = split(output).slice(0, -1), go = image.length - 1;
  return [...image.slice(0, go), "RO 1", image[go], ...lines, ""].join("\n");
}

// What the lines EXAM and STATE show after so many units.
function looked(text, units) {
  const lines = ["TICK 0 1", ...Array(units).fill("TICK 0 1"), "STATE 0", "EXAM 0 0 10", "EXAM 0 10 10", "EXAM 0 200 3"];
  const out = split(runInModule("run", sessionOf(text, lines))).slice(-4);
  const [state, ...words] = out.map(line => line.split(" "));
  return {pc: state[7], pending: number(state[8]), core: words.flatMap(one => one.slice(3))};
}

// The name of a place.
function nameOf(at) { return (Object.entries(PLACES).find(([, one]) => one === at) || [octal(at)])[0]; }

// A word in the short form of the manual.
function shortly(word) {
  if (number(word) > 0o777777000000) return "-" + octal(2 ** 36 - number(word));
  const left = number(word.slice(0, 6)), right = nameOf(number(word.slice(6)));
  return left ? nameOf(left) + ",," + right : right;
}

// Where the instruction has left PC.
function pcSaid(pc) {
  const at = number(pc.slice(6));
  return at === FIRST + 1 || at === FIRST ? [] : at === FIRST + 2 ? ["skip"] : ["to " + nameOf(at)];
}

/** What is after the example, in the words of the manual; it is repeated while PC stays and nothing is pending. */
export function afterOf(example, before) {
  const text = textOf(example, before);
  if (!sessionOf(text, [])) throw new Error("'" + example + "' is not assembled");
  const first = looked(text, 0);
  let units = 1, last = looked(text, 1);
  while (number(last.pc.slice(6)) === FIRST && last.pending % (FATAL + 1) === 0 && units < MOST_UNITS) last = looked(text, units += 1);
  const name = at => at < 0o20 ? octal(at) : ["X", "Y", "Z"][at - 0o20];
  const words = last.core.flatMap((word, at) => word === first.core[at] ? [] : [name(at) + "=" + shortly(word)]);
  const flags = bitNames(number(last.pc.slice(0, 6)), FLAGS).filter(one => one !== "user");
  return [...words, ...pcSaid(last.pc), ...flags, ...bitNames(last.pending, PENDING)].join(", ");
}
