// For the commands, in node: a program that runs a session and answers each line at once, and copies of
// it that run from the start. Each is in a session of processes of its own, so that no key and no hangup
// of the terminal ends it.

import {spawn} from "node:child_process";
import os from "node:os";
import path from "node:path";

import {Engine, Trapped} from "../engine.js";
import {joined, split} from "../session.js";
import {Over} from "../sitting.js";
import {say, systemError} from "./command.js";
import {moduleInPage} from "./page.js";
import {TOP, outcomeOf} from "./program.js";

/** @typedef {import("./program.js").Outcome} Outcome */

/** How a copy ends: a session, run from its start.
 * @typedef {(text: string) => Promise<Outcome>} Copier */

const SECONDS = 300;                     // a copy may take no longer
export const MODULE = path.join(TOP, "tools", "module");       // the program as a module

/** The status of a program that has ended: that of its own, or minus the signal that ended it.
 * @param {number | null} status
 * @param {string | null} signal */
function statusOf(status, signal) { return status === null ? -(os.constants.signals[signal || ""] || 1) : status; }

/** Starts a program. What it says on standard error is said here: a terminal that hangs up does it no harm.
 * @param {string[]} words the program first */
function started(words) {
  const child = spawn(words[0], words.slice(1), {stdio: ["pipe", "pipe", "pipe"], detached: true});
  child.stdin.on("error", () => {});     // it has ended: its missing answer says so
  child.stderr.on("data", (/** @type {Buffer} */ part) => say(part.toString("latin1").trimEnd()));
  return child;
}

/** Runs a session from its start, on a program of its own.
 * @param {string[]} words the program first
 * @param {string} input
 * @returns {Promise<Outcome>} */
export function ran(words, input) {
  return new Promise((resolve, reject) => {
    const child = started(words), late = setTimeout(() => child.kill("SIGKILL"), 1000 * SECONDS);
    /** @type {Buffer[]} */
    const parts = [];
    child.stdout.on("data", (/** @type {Buffer} */ part) => parts.push(part));
    child.on("error", (/** @type {Error} */ problem) => {
      clearTimeout(late);
      reject(new Over(systemError(words[0], problem).message));
    });
    child.on("close", (/** @type {number | null} */ status, /** @type {string | null} */ signal) => {
      clearTimeout(late);
      resolve(outcomeOf(statusOf(status, signal), Buffer.concat(parts)));
    });
    child.stdin.end(Buffer.from(input, "latin1"));
  });
}

/** What runs copies with a program: a process for each, or for the module an engine in this process, which
 * need not begin node and compile the module each time.
 * @param {string} program
 * @returns {Copier} */
export function copierOf(program) {
  if (program !== MODULE) return text => ran([program, "run"], text);
  const engine = new Engine(moduleInPage());
  return async text => {
    try {
      const {status, output} = engine.call(["run"], text);
      return outcomeOf(status, Buffer.from(output, "latin1"));
    } catch (problem) {
      if (!(problem instanceof Trapped)) throw problem;
      throw new Over(problem.message);
    }
  };
}

/** The living program of a sitting (Host of sitting.js). */
export class Living {
  /** @param {string} program
   * @param {Copier} copy */
  constructor(program, copy) {
    this.copy = copy;
    this.child = started([program, "run"]);
    /** @type {string[]} */
    this.lines = [];                     // that came
    this.at = 0;                         // how many of them were read
    this.part = "";                      // of a line that has not come whole
    this.wake = () => {};
    this.problem = "";                   // why there are no more lines
    this.status = 0;
    this.child.stdout.on("data", (/** @type {Buffer} */ data) => this.take(data.toString("latin1")));
    this.child.on("error", (/** @type {Error} */ problem) => this.ended(systemError(program, problem).message, 1));
    this.child.on("close", (/** @type {number | null} */ status, /** @type {string | null} */ signal) => {
      this.ended("the program ended with status " + statusOf(status, signal), statusOf(status, signal));
    });
  }

  /** Some output has come.
   * @param {string} data */
  take(data) {
    const lines = (this.part + data).split("\n");
    this.part = lines.pop() || "";
    for (const line of lines) this.lines.push(line);
    if (lines.length) this.wake();
  }

  /** The program has ended.
   * @param {string} problem
   * @param {number} status */
  ended(problem, status) {
    this.problem = this.problem || problem;
    this.status = this.status || status;
    this.wake();
  }

  /** Waits until more lines have come, or the program has ended.
   * @returns {Promise<void>} */
  more() { return new Promise(resolve => { this.wake = resolve; }); }

  /** Writes lines.
   * @param {string[]} texts */
  write(texts) { if (texts.length) this.child.stdin.write(Buffer.from(joined(texts), "latin1")); }

  /** The next line that it writes. */
  async read() {
    while (this.at === this.lines.length && !this.problem) {
      this.lines = [];
      this.at = 0;
      await this.more();
    }
    if (this.at === this.lines.length) throw new Over(this.problem);
    this.at += 1;
    return this.lines[this.at - 1];
  }

  /** Ends its session: the lines that it still writes, and its status.
   * @returns {Promise<[string[], number]>} */
  async end() {
    this.child.stdin.end();
    while (!this.problem) await this.more();
    return [[...this.lines.slice(this.at), ...split(this.part)], this.status];
  }
}
