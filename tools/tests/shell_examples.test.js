// The examples of documents that are commands of a shell: lines that are indented by four columns and begin with `$`, and what they write.

import assert from "node:assert";
import {spawnSync} from "node:child_process";
import {test} from "node:test";

import {atHand} from "../lib/node/program.js";
import {TOP, textOf} from "./shared.js";

const program = atHand(), skip = !program || program.endsWith("its-unproved") ? "there is no proved program of these sources" : false;

/** The examples of a document: commands, and all that these write.
 * @param {string} text
 * @returns {{script: string, shown: string}[]} */
function examplesOf(text) {
  return [...text.matchAll(/(?<=\n\n)    \$ (?:.+\n(?=    |\n|$))+/g)].map(([block]) => {
    const lines = block.trimEnd().split("\n").map(line => line.slice(4));
    // `> ` begins the rest of a command that ends with a pipe; any other one is written
    const isCommand = lines.map((line, at) => line.startsWith("$ ") || line.startsWith("> ") && lines[at - 1].endsWith("|"));
    const of = (/** @type {boolean} */ asked, /** @type {number} */ from) => lines.filter((_, at) => isCommand[at] === asked).map(line => line.slice(from) + "\n").join("");
    return {script: of(true, 2), shown: of(false, 0)};
  });
}

for (const [name, least] of /** @type {[string, number][]} */ ([["docs/TOUR.md", 6], ["docs/SESSION.md", 3]])) {
  const found = examplesOf(textOf(name, "utf8"));
  test(name + " has examples of a shell", () => assert.ok(found.length >= least, String(found.length)));
  for (const {script, shown} of found) {
    test(name + ": " + script.split("\n")[0], {skip}, () => {
      const done = spawnSync("bash", ["-c", script], {cwd: TOP, env: {...process.env, ITS_QUIET: "1"}, timeout: 120000});
      assert.strictEqual(done.stdout.toString(), shown, done.stderr.toString());
    });
  }
}
