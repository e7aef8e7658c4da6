// For the commands, in node: runs the program its, the WebAssembly module of the page, with the words, standard input and standard output
// of this process, and ends with its status; with 125 if the module cannot be run. Each read and write is a call of the system: so a line is
// answered before the next one is read, and a write that fails is noticed at once.

import {readFileSync, readSync, writeSync} from "node:fs";
import process from "node:process";

import {Instance} from "../engine.js";
import {say} from "./command.js";
import {moduleInPage} from "./page.js";

const TRY_AGAIN_MS = 10;                 // between two calls of a descriptor that does not wait
const NO_PROGRAM = 125;                  // the status if there is no program, or it met a fault; 1 is one of the program's own
const BAD_FILE = -9, BROKEN = -5;        // minus the numbers of errors of Linux

const closed = process.env.ITS_CLOSED || "";       // the descriptors that were closed when tools/module began
const clock = new Int32Array(new SharedArrayBuffer(4));

/** The words of the program, as bytes. Node's own are text, in which a byte that is not of UTF-8 has become a character.
 * @returns {Buffer[]} */
function wordsGiven() {
  const given = process.argv.slice(2);
  if (!given.length) return [];
  try {
    const all = readFileSync("/proc/self/cmdline", "latin1").split("\0").slice(0, -1);
    return all.slice(-given.length).map(word => Buffer.from(word, "latin1"));
  } catch {
    return given.map(word => Buffer.from(word));
  }
}

/** What a call of the system gives: how many bytes it moved, or minus the number of its error.
 * @param {number} fd
 * @param {(fd: number, bytes: Uint8Array) => number} call
 * @param {Uint8Array} bytes */
function moved(fd, call, bytes) {
  if (closed.includes(String(fd))) return BAD_FILE;
  for (;;) {
    try {
      return call(fd, bytes);
    } catch (problem) {
      const {code, errno} = /** @type {{code: string, errno: number}} */ (problem);
      if (code === "EOF") return 0;      // the end of a pipe, on Windows
      if (code !== "EAGAIN") return errno < 0 ? errno : BROKEN;
      Atomics.wait(clock, 0, 0, TRY_AGAIN_MS);
    }
  }
}

try {
  const module = new WebAssembly.Module(moduleInPage());
  const instance = new Instance(module, bytes => moved(0, readSync, bytes), bytes => moved(1, writeSync, bytes));
  process.exitCode = instance.run([Buffer.from("its"), ...wordsGiven()]);
} catch (problem) {
  say("its: status " + NO_PROGRAM + ": the module of docs/its.html does not run: " + problem);
  process.exitCode = NO_PROGRAM;
}
