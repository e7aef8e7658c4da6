// A command: makes a text of the assembler here from one in MIDAS, the assembler of ITS.

import path from "node:path";

import {refusalOf, translate} from "../lib/midas/translate.js";
import {Refused} from "../lib/midas/tree.js";
import {Words, command, say, textOf, write} from "../lib/node/command.js";
import {Wrong} from "../lib/words.js";

const ABOUT = `
Makes a text of the assembler here from one in MIDAS, the assembler of ITS.

    tools/midas sessions/midas/echo.mid > echo.asm
    ./its asm < echo.asm

docs/MIDAS.md says what is understood. If a line of the text is refused, standard error has the first such line, with the place and the
cause, and the status is 1. A file that .INSRT names is looked for beside the text. MIDAS does not name the job: its names are U and that
of TITLE, and its console is 0, unless the words of the command say something else.
`;
const WORDS = new Words("midas", ABOUT, [
  {name: "--user", takes: "NAME", about: "the user name of the job", otherwise: "U"},
  {name: "--job", takes: "NAME", about: "the job name, if it is not that of TITLE or of the file", otherwise: ""},
  {name: "--console", takes: "C", about: "its console, 0 to 7, or none (0)", otherwise: "0"},
  {name: "FILE", key: "file", about: "a MIDAS text, or - for standard input"}]);
const NAME = /^[!-:<-_]{1,6}$/;

/** The text of a file that .INSRT names, beside the one that asks for it; null if it cannot be read.
 * @param {string} name
 * @param {string} beside */
function inserted(name, beside) {
  const file = name.startsWith("/") ? name : path.join(path.dirname(beside), name);
  try {
    return {name: file, text: textOf(file)};
  } catch (problem) {
    if (problem instanceof Wrong) return null;
    throw problem;
  }
}

/** Reads, translates and writes.
 * @param {string[]} given */
export function main(given) {
  const words = WORDS.values(given);
  if (!NAME.test(words.user) || words.job && !NAME.test(words.job)) {
    throw new Wrong("a name has 1 to 6 characters of SIXBIT, none of them a blank, ; or a small letter");
  }
  if (!/^([0-7]|none)$/.test(words.console)) throw new Wrong("the console is 0 to 7, or none");
  const source = textOf(words.file), job = {user: words.user, job: words.job, console: words.console === "none" ? "-" : words.console};
  try {
    write(translate(source, words.file, job, (name, beside) => inserted(name, beside || words.file)).text);
  } catch (problem) {
    if (!(problem instanceof Refused)) throw problem;
    say(refusalOf(words.file, problem.at.file ? textOf(problem.at.file) : source, problem).trimEnd());
    return 1;
  }
  return 0;
}

command("midas", main);
