// For the commands, in node: the two files that keep a session and its transcript.

import {closeSync, openSync, writeSync} from "node:fs";
import os from "node:os";
import path from "node:path";

import {joined} from "../session.js";
import {Over} from "../sitting.js";
import {Wrong} from "../words.js";
import {systemError} from "./command.js";

/** Both files are new, and what is added is there at once. */
export class Kept {
  /** @param {string} name of the session */
  constructor(name) {
    this.path = name.replace(/^~(?=\/|$)/, os.homedir());
    this.transcriptPath = this.path.slice(0, this.path.length - path.extname(this.path).length) + ".out";
    if (this.transcriptPath === this.path) throw new Wrong(this.path + ": a session with this name would be overwritten by its transcript");
    this.files = [this.made(this.path), this.made(this.transcriptPath)];
  }

  /** Makes a new file.
   * @param {string} name */
  made(name) {
    try {
      return openSync(name, "wx");
    } catch (problem) {
      if (/** @type {*} */ (problem).code === "EEXIST") throw new Wrong(name + ": File exists");
      throw systemError(name, problem);
    }
  }

  /** Adds lines to the session (0) or to its transcript (1), at once.
   * @param {number} which
   * @param {string[]} lines */
  add(which, lines) {
    let rest = Buffer.from(joined(lines), "latin1");
    try {
      while (rest.length) rest = rest.subarray(writeSync(this.files[which], rest));
    } catch (problem) {
      throw new Over(systemError(which ? this.transcriptPath : this.path, problem).message);
    }
  }

  /** Closes both files. */
  close() {
    for (const file of this.files) {
      try {
        closeSync(file);
      } catch { /* what is in it is there already */ }
    }
  }
}
