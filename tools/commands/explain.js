// A command: explains a session and its transcript line by line, or the mistakes of an assembly text.

import {Assembled} from "../lib/assembled.js";
import {warningsOf} from "../lib/asm_causes.js";
import {isAssembly} from "../lib/assembly.js";
import {mistakesIn, toldMistakes} from "../lib/mistakes.js";
import {Words, asJson, command, textOf, writeLines} from "../lib/node/command.js";
import {atHand, run, runOne} from "../lib/node/program.js";
import {linesOf} from "../lib/session.js";
import {inWords, toldEach} from "../lib/told.js";
import {Transcript, exchanges} from "../lib/transcript.js";
import {unlicensed} from "../lib/unlicensed.js";
import {Wrong, countOf, octal} from "../lib/words.js";

const ABOUT = `
Explains a session and its transcript line by line: each line with its answer, and what both mean.

    tools/explain sessions/echo.its
    tools/explain sessions/echo.asm

Without a transcript, the program makes it. Names are read as SIXBIT, bytes as characters, frames and bits by their names, addresses
by the nearest symbol of a SYM line. For a line that the program refuses it shows the place of the cause in the line, and what
helps. For a given transcript that the program does not accept, it shows which line of the session the first wrong line answers, what
is licensed there, and which rule is broken; then the status is 1.

An assembly text is assembled by the program. If a line is refused, the cause is explained in the same way; that line is left out, and the text
is assembled again, so that all mistakes are shown.

Lines are numbered in decimal, as an editor does, with the octal number in parentheses; all numbers of the lines themselves are octal.
With --json each line of the session, or the refused line of an assembly text, is one JSON value on a line.
`;

const WORDS = new Words("explain", ABOUT, [
  {name: "--json", about: "one JSON value for each line of the session"},
  {name: "SESSION", about: "a session, or an assembly text NAME.asm, or - for standard input"},
  {name: "TRANSCRIPT", about: "its transcript, if it need not be run", optional: true}]);

/** What is said of the lines after the last one that was looked at.
 * @param {number} last
 * @param {number} lines */
export function leftOut(last, lines) {
  const rest = lines - last;
  return rest <= 0 ? [] : ["", "The session is over here: " + countOf(rest, "line after it is", "lines after it are") + " not looked at."];
}

/** A session, line by line.
 * @param {string} name
 * @param {string} session
 * @param {string} transcriptName
 * @param {string} transcript
 * @param {boolean} isJson
 * @param {string} program what can be asked, if it is there
 * @returns {Generator<string>} */
function* explainSession(name, session, transcriptName, transcript, isJson, program) {
  const lines = linesOf(session), told = exchanges(name, lines, new Transcript(transcriptName, transcript));
  let isEmpty = true;
  const ask = (/** @type {string} */ one) => run([program, "run"], one).output;
  for (const one of toldEach(name, told, program ? ask : null)) {
    isEmpty = false;
    yield* isJson ? [asJson(one)] : inWords(one);
  }
  if (isJson) return;
  if (isEmpty) yield "The session has no line.";
  yield* leftOut(told[told.length - 1].line.number, lines.length - 1);
}

/** An assembly text: the lines that are refused, or what it is assembled to.
 * @param {string} name
 * @param {string} text
 * @param {boolean} isJson
 * @returns {string[]} */
function explainText(name, text, isJson) {
  const asm = (/** @type {string} */ one) => runOne(one, name, "asm"), mistakes = toldMistakes(text, mistakesIn(text, asm));
  if (mistakes.length) return isJson ? mistakes.map(asJson) : [...mistakes.flatMap(inWords), "", countOf(mistakes.length, "line") + " refused."];
  const made = new Assembled(text, asm(text));
  return isJson ? [] : [name + ": assembled: job " + made.job[0] + " " + made.job[1] + ", " + countOf(made.words.size, "word") + ", " +
                        countOf(made.symbols.size, "symbol") + ", start " + octal(made.start).padStart(6, "0") + " (tools/listing shows them)",
                        ...warningsOf(made.reading).map(warning => "warning: " + warning)];
}

/** Reads, runs and explains.
 * @param {string[]} given */
export function main(given) {
  const {session: name, transcript: other, json} = WORDS.values(given), text = textOf(name);
  if (name !== "-" && isAssembly(name, text)) {
    if (other) throw new Wrong(name + " is an assembly text, which has no transcript");
    writeLines(explainText(name, text, json));
    return 0;
  }
  const transcript = other ? textOf(other) : runOne(text, name), program = atHand();
  const wrong = other && program ? unlicensed((words, input) => run([program, ...words], input), name, text, other, transcript) : [];
  writeLines(wrong.length ? wrong : explainSession(name, text, other || "the transcript", transcript, json, program));
  return wrong.length ? 1 : 0;
}

command("explain", main);
