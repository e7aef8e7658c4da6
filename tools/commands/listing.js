// A command: lists an assembly text: the location and the word of each line, the symbols and the literals.

import {Assembled, mustBeGood} from "../lib/assembled.js";
import {listingOf} from "../lib/listing.js";
import {Words, command, textOf, writeLines} from "../lib/node/command.js";
import {runOne} from "../lib/node/program.js";

const ABOUT = `
Lists an assembly text: the location and the word of each line, the symbols and the literals.

    tools/listing sessions/echo.asm

The words are those that the program's \`asm\` makes; this tool adds which line each is of. Locations and words are octal. Lines are
numbered in decimal, as an editor does, with the octal number in parentheses. Below the lines are the literals, with the line that uses each
first, and the symbols, in the order of their values. If the program refuses a line of the text, one line on standard error says so,
and the status is 1; tools/explain shows the place in the line.
`;

const WORDS = new Words("listing", ABOUT, [{name: "X.asm", key: "name", about: "an assembly text, or - for standard input"}]);

/** Assembles and lists.
 * @param {string[]} given */
export function main(given) {
  const {name} = WORDS.values(given), text = textOf(name);
  writeLines(listingOf(name, mustBeGood(name, new Assembled(text, runOne(text, name, "asm")))));
  return 0;
}

command("listing", main);
