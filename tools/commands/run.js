// A command: runs many sessions, and compares their transcripts with those that are stored.

import {existsSync, readdirSync, statSync} from "node:fs";
import path from "node:path";

import {difference} from "../lib/alike.js";
import {Words, command, systemError, textOf, write, writeLines} from "../lib/node/command.js";
import {runEach} from "../lib/node/program.js";
import {split} from "../lib/session.js";
import {Wrong} from "../lib/words.js";

/** @typedef {import("../lib/node/program.js").Outcome} Outcome */

const ABOUT = `
Runs many sessions with one build, and compares their transcripts with those that are stored.

    tools/run sessions
    tools/run my.its other.its

A folder means all its files NAME.its. The transcript of NAME.its is compared with NAME.out if that file is in the same folder, and
is printed otherwise. If they differ, the difference is printed: - is what NAME.out says, + what the program wrote. The last line
is \`N passed, M failed\`, and the status is 0 if none failed, else 1.
`;

const WORDS = new Words("run", ABOUT, [{name: "FILE|FOLDER", key: "paths", about: "a session, or a folder of sessions NAME.its", many: true}]);

/** Whether a path is a folder.
 * @param {string} name */
function isFolder(name) { return existsSync(name) && statSync(name).isDirectory(); }

/** The sessions in a folder, in order.
 * @param {string} folder */
function sessionsIn(folder) {
  let names = [];
  try {
    names = readdirSync(folder).filter(name => name.endsWith(".its")).map(name => path.join(folder, name)).sort();
  } catch (problem) {
    throw systemError(folder, problem);
  }
  if (!names.length) throw new Wrong(folder + ": there is no file NAME.its in this folder");
  return names;
}

/** The path that the stored transcript of a session would have.
 * @param {string} name */
function beside(name) { return name.slice(0, name.length - path.extname(name).length) + ".out"; }

/** The stored transcript of a session, null if there is none.
 * @param {string} name */
function wanted(name) {
  const stored = beside(name);
  return stored !== name && existsSync(stored) ? textOf(stored) : null;
}

/** What is said of a session: nothing if its transcript is the stored one.
 * @param {string} name
 * @param {string | null} stored
 * @param {Outcome} outcome */
export function compared(name, stored, {status, output, problem}) {
  if (problem) return [name + ": " + problem];
  if (stored === null) {
    const refused = status === 2 ? " (a line is refused; tools/explain says why)" : "";
    return [name + ": there is no " + beside(name) + " to compare with. Its transcript" + refused + ":", ...split(output)];
  }
  if (stored === output) return [];
  return [name + ": its transcript is not " + beside(name) + " (@@: the lines, in decimal)",
          ...difference(split(stored), split(output), [beside(name), "the transcript"], 1)];
}

/** Runs the sessions and says how they ended.
 * @param {string[]} given */
export async function main(given) {
  const names = WORDS.values(given).paths.flatMap((/** @type {string} */ name) => isFolder(name) ? sessionsIn(name) : [name]);
  const sessions = names.map(textOf), stored = names.map(wanted);
  let passed = 0, failed = 0, alone = 0, at = 0;
  for await (const outcome of runEach(sessions)) {
    const said = compared(names[at], stored[at], outcome);
    writeLines(said);
    if (stored[at] === null && !outcome.problem) alone += 1;
    else if (said.length) failed += 1;
    else passed += 1;
    at += 1;
  }
  write(passed + " passed, " + failed + " failed" + (alone ? ", " + alone + " with nothing to compare" : "") + "\n");
  return failed ? 1 : 0;
}

command("run", main);
