// A command: checks tools/terminal as somebody at a terminal would.

import {mkdtempSync, rmSync} from "node:fs";
import os from "node:os";
import path from "node:path";

import {command, write} from "../lib/node/command.js";
import {program} from "../lib/node/program.js";
import {Check} from "../tests/terminal_checking.js";
import {ends, idle, no_terminal, picture, wrong_words} from "../tests/terminal_ends.js";
import {Missing} from "../tests/terminal_person.js";
import {at_the_prompt, debugger_, interrupt_key, interrupted_call, plain, programs, stopped_by_itself, symbols, text_comes_back, ticker, window_,
        wrong_lines} from "../tests/terminal_sitting.js";

const ABOUT = `
Checks tools/terminal as somebody at a terminal would: typed text comes back, Control-Z in the middle of a call loses nothing, a wrong
line ends nothing, what is kept runs to the same transcript, and the terminal is restored whatever happens.

    tools/terminal-check [CHECK..]

All checks, or those that are named. They use the proved program, else an unproved one, and python3 for the terminals. What is wrong
gives a line, and the status is 1 then.
`;

/** The checks by their names.
 * @type {Record<string, (check: Check) => Promise<void>>} */
const CHECKS = {text_comes_back, interrupted_call, wrong_lines, at_the_prompt, symbols, stopped_by_itself, window: window_, plain, no_terminal,
                wrong_words, ends, idle, interrupt_key, programs, ticker, debugger: debugger_, picture};

/** Makes a check in a folder of its own: what is wrong, or nothing.
 * @param {string} name
 * @param {string} its */
async function wrongIn(name, its) {
  const folder = mkdtempSync(path.join(os.tmpdir(), "its-")), check = new Check(its, folder);
  try {
    await CHECKS[name](check);
    return "";
  } catch (problem) {
    if (!(problem instanceof Missing)) throw problem;
    return "terminal-check: " + name + ": " + problem.message + "\n";
  } finally {
    await check.end();
    rmSync(folder, {recursive: true, force: true});
  }
}

/** Makes all checks, or those that are named.
 * @param {string[]} given */
export async function main(given) {
  if (given.includes("-h") || given.includes("--help")) {
    write(ABOUT.trimStart());
    return 0;
  }
  const unknown = given.filter(name => !CHECKS[name]);
  if (unknown.length) {
    write("terminal-check: there is no check " + unknown.join(", ") + "; there are " + Object.keys(CHECKS).join(", ") + "\n");
    return 1;
  }
  const its = program();
  let status = 0;
  for (const name of given.length ? given : Object.keys(CHECKS)) {
    const wrong = await wrongIn(name, its);
    write(wrong);
    if (wrong) status = 1;
  }
  return status;
}

command("terminal-check", main);
