// A command: assembles a text, runs its job with more lines of a session, and explains what happens.

import {warningsOf} from "../lib/asm_causes.js";
import {Assembled, consoleSaid} from "../lib/assembled.js";
import {mistakesIn, toldMistakes} from "../lib/mistakes.js";
import {Words, command, textOf, writeLines} from "../lib/node/command.js";
import {runOne} from "../lib/node/program.js";
import {joined, split} from "../lib/session.js";
import {Symbols} from "../lib/symbols.js";
import {imageLines, plainTail} from "../lib/tails.js";
import {inWords, toldEach} from "../lib/told.js";
import {toldOf} from "../lib/transcript.js";
import {countOf, octal} from "../lib/words.js";

const ABOUT = `
Assembles a text, runs its job with more lines of a session, and explains what happens.

    tools/job sessions/first.asm
    tools/job sessions/first.asm tail.its
    tools/job sessions/close-writer.asm sessions/close-reader.asm tail.its
    tools/job --session sessions/first.asm tail.its > whole.its

The tail has the lines that follow the image, as TICK 0 20 and EXAM 0 200 1. The job of the first text is in slot 0, that of the
second in slot 1, and so on. A number that is not a slot may be written as a symbol of the job, or as a sum such as TABLE+3: EXAM 0 RESULT 1
is made into EXAM 0 200 1, and both are shown. The symbols are those of the job in the slot that the line names, else those of slot 0.
Without a tail each job gets 1000 (octal) ticks, its console is drained, and STATE shows where it is.

Each line of the tail is explained as tools/explain does, with its number in the tail. With --session the whole session is written instead, in
plain lines, which ./its run takes. If lines of a text or a line of the tail are refused, the causes are shown, and the
status is 1.
`;

const WORDS = new Words("job", ABOUT, [
  {name: "--session", about: "write the whole session, and do not run it"},
  {name: "X.asm", key: "files", about: "assembly texts, and after them the tail, or - for standard input", many: true}]);

const TICKS = 0o1000;        // of each job, if there is no tail

/** The tail if none is given.
 * @param {Assembled[]} made */
function ownTail(made) {
  return joined([...made.flatMap((one, slot) => [
    "TICK " + octal(slot) + " " + octal(TICKS), ...(one.job[2] === "-" ? [] : ["DRAIN " + one.job[2] + " 100"]), "STATE " + octal(slot)]), "END"]);
}

/** What is said of a text that was assembled.
 * @param {string} name
 * @param {number} slot
 * @param {Assembled} made */
function about(name, slot, made) {
  const places = [...made.words.keys()].sort((one, other) => one - other), [first = 0] = places, last = places[places.length - 1] || 0;
  return [name + ": job " + made.job[0] + " " + made.job[1] + " in slot " + octal(slot) + ", " + consoleSaid(made) + ", " +
          countOf(made.words.size, "word") + " at " + octal(first) + " to " + octal(last) + ", started at " + octal(made.start) +
          new Symbols(made.symbols).near(made.start),
          ...warningsOf(made.reading).map(warning => "warning: " + warning)];
}

/** What is said of the lines of the tail.
 * @param {string} tail
 * @param {string[]} head the lines before it
 * @param {string} session
 * @param {string} transcript */
function toldTail(tail, head, session, transcript) {
  const written = split(tail), told = [...toldEach("the session", toldOf("the session", session, transcript, "its transcript"), one => runOne(one, "the session"))];
  return told.filter(one => one.line > head.length).map(one => {
    const line = one.line - head.length, text = written[line - 1] || "";
    const plain = one.text !== text && !one.text.startsWith("; VERSION") ? one.text : "";
    return {...one, line, text, plain};
  });
}

/** Assembles, joins, runs and explains.
 * @param {string[]} given */
export function main(given) {
  const {files, session: isWritten} = WORDS.values(given), hasTail = files.length > 1 && !files[files.length - 1].endsWith(".asm");
  const texts = hasTail ? files.slice(0, -1) : files, tailName = hasTail ? files[files.length - 1] : "the tail";
  /** @type {Assembled[]} */
  const made = [];
  for (const name of texts) {
    const text = textOf(name), asm = (/** @type {string} */ some) => runOne(some, name, "asm"), one = new Assembled(text, asm(text));
    if (one.refused) {
      writeLines([name + ":", ...toldMistakes(text, mistakesIn(text, asm)).flatMap(inWords)]);
      return 1;
    }
    made.push(one);
  }
  const tail = hasTail ? textOf(tailName) : ownTail(made), plain = plainTail(tailName, tail, made);
  const head = ["VERSION 2", ...made.flatMap(imageLines)];
  if (isWritten) {
    writeLines([...head, ...plain, ...(plain.some(line => line.trim() === "END") ? [] : ["END"])]);
    return 0;
  }
  const session = joined([...head, ...plain]), told = toldTail(tail, head, session, runOne(session, tailName));
  writeLines([...texts.flatMap((/** @type {string} */ name, /** @type {number} */ slot) => about(name, slot, made[slot])), ...told.flatMap(inWords)]);
  return told.some(one => one.refused) ? 1 : 0;
}

command("job", main);
