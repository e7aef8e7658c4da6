// For the commands, in node: finding and running the program: one input, or many, a few at a time.

import {spawn, spawnSync} from "node:child_process";
import path from "node:path";
import {fileURLToPath} from "node:url";

import {Wrong} from "../words.js";
import {systemError} from "./command.js";

/** The folder of the repository. */
export const TOP = path.dirname(path.dirname(path.dirname(path.dirname(fileURLToPath(import.meta.url)))));
const AT_ONCE = 2;                       // so many runs go on at once
const SECONDS = 300;                     // a run may take no longer

/** What the exit statuses of the program say (docs/SESSION.md).
 * @type {Record<number, string>} */
const STATUSES = {3: "a read of the input failed", 4: "a write of the answer failed", 5: "memory was refused",
                  6: "the input has too many lines", 7: "the system did not give the program its words"};

/** How a run ended, and what it wrote. `problem`: why there is no whole answer; nothing if the run was done or refused.
 * @typedef {{status: number, output: string, problem: string}} Outcome */

/** Does the work of a program: the words after its name and its input give the status and what it writes.
 * @typedef {(words: string[], input: string) => {status: number, output: string}} Substitute */

let found = "";                          // the program that this process uses, once it is found
/** @type {Substitute | null} */
let substitute = null;                   // what is asked in its place

/** What a tool that finds a program says, if it finds one.
 * @param {string} tool
 * @param {string[]} words */
function saidBy(tool, ...words) {
  const done = spawnSync(path.join(TOP, "tools", tool), words, {stdio: ["ignore", "pipe", "inherit"]});
  return done.status === 0 ? done.stdout.toString().replace(/\n+$/, "") : "";
}

/** The proved build, if it is there and newer than the sources; else nothing. */
export function proved() { return saidBy("proved"); }

/** The program that tools/program finds: the proved one, else an unproved one, which is built if none is kept. */
export function program() {
  found = found || saidBy("program");
  if (!found) throw new Wrong("there is no proved program of these sources, and no unproved one could be made (./its says what is missing)");
  return found;
}

/** The program as above, but nothing if it would have to be built. */
export function atHand() { return found = found || saidBy("program", "--kept"); }

/** Takes a program instead of looking for one: its path, or what is asked in its place.
 * @param {string | Substitute} own */
export function useProgram(own) {
  found = typeof own === "string" ? own : "its";
  substitute = typeof own === "string" ? null : own;
}

/** How a run ended; its status is null if its time was over.
 * @param {number | null} status
 * @param {Buffer} output
 * @returns {Outcome} */
export function outcomeOf(status, output, seconds = SECONDS) {
  if (status === null) return {status: -1, output: "", problem: "the program took more than " + seconds + " seconds"};
  const problem = status === 0 || status === 2 ? "" : STATUSES[status] || "the program ended with status " + status;
  return {status, output: output.toString("latin1"), problem};
}

/** Runs a program with these words on an input.
 * @param {string[]} words the program first
 * @param {string} input
 * @returns {Outcome} */
export function run(words, input, seconds = SECONDS) {
  if (substitute && words[0] === found) {
    const {status, output} = substitute(words.slice(1), input);
    return outcomeOf(status, Buffer.from(output, "latin1"));
  }
  const done = spawnSync(words[0], words.slice(1), {input: Buffer.from(input, "latin1"), stdio: ["pipe", "pipe", "inherit"],
                                                    maxBuffer: 2 ** 31, timeout: 1000 * seconds});
  const code = done.error && /** @type {*} */ (done.error).code;
  if (code && !["EPIPE", "ETIMEDOUT"].includes(code)) throw systemError(words[0], done.error);
  return outcomeOf(code === "ETIMEDOUT" ? null : done.status === null ? -1 : done.status, done.stdout, seconds);
}

/** The same, while other work goes on.
 * @param {string[]} words
 * @param {string} input
 * @returns {Promise<Outcome>} */
export function runLater(words, input, seconds = SECONDS) {
  if (substitute && words[0] === found) return Promise.resolve(run(words, input));
  return new Promise((resolve, reject) => {
    const child = spawn(words[0], words.slice(1), {stdio: ["pipe", "pipe", "inherit"], timeout: 1000 * seconds});
    /** @type {Buffer[]} */
    const parts = [];
    child.stdout.on("data", (/** @type {Buffer} */ part) => parts.push(part));
    child.stdin.on("error", () => {});   // it ended before it had read all
    child.on("error", (/** @type {Error} */ problem) => { try { reject(systemError(words[0], problem)); } catch (other) { reject(other); } });
    child.on("close", (/** @type {number | null} */ status, /** @type {string} */ signal) => resolve(
      outcomeOf(signal === "SIGTERM" ? null : status === null ? -1 : status, Buffer.concat(parts), seconds)));
    child.stdin.end(Buffer.from(input, "latin1"));
  });
}

/** Runs inputs, each independently, a few at a time, in their order. So of very many inputs few are kept at once.
 * @param {Iterable<string>} inputs
 * @param {string} [kind] of the commands of the program
 * @returns {AsyncGenerator<Outcome>} */
export async function* runEach(inputs, kind = "run") {
  /** @type {Promise<Outcome>[]} */
  const waiting = [];
  for (const input of inputs) {
    waiting.push(runLater([program(), kind], input));
    if (waiting.length >= AT_ONCE) yield await /** @type {Promise<Outcome>} */ (waiting.shift());
  }
  for (const one of waiting) yield await one;
}

/** The answer to an input that is done or refused.
 * @param {string} input
 * @param {string} name
 * @param {string} [kind]
 * @returns {string} */
export function runOne(input, name, kind = "run") {
  const outcome = run([program(), kind], input);
  if (outcome.problem) throw new Wrong(name + ": " + outcome.problem);
  return outcome.output;
}
