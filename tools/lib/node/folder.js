// For the commands, in node: the folder of a system: its session, which is added to before anything of it is shown, and its transcript.

import {closeSync, existsSync, fdatasync, fsyncSync, ftruncateSync, mkdirSync, openSync, renameSync, unlinkSync, writeFileSync,
        writeSync} from "node:fs";
import path from "node:path";
import process from "node:process";

import {hasEnded, wholeOf} from "../resuming.js";
import {joined, split} from "../session.js";
import {Over} from "../sitting.js";
import {Wrong} from "../words.js";
import {systemError, textOf} from "./command.js";

/** Does something with a file, and says what the system says.
 * @template T
 * @param {string} name
 * @param {() => T} act
 * @returns {T} */
function attempted(name, act) {
  try {
    return act();
  } catch (problem) {
    throw systemError(name, problem);
  }
}

/** Adds bytes at the end of a file, all of them.
 * @param {number} file
 * @param {string} text */
function writeAll(file, text) {
  let rest = Buffer.from(text, "latin1");
  while (rest.length) rest = rest.subarray(writeSync(file, rest));
}

/** The folder of a system. */
export class Folder {
  /** @param {string} folder
   * @param {boolean} isChecked the transcript is kept, so that it can be verified */
  constructor(folder, isChecked) {
    this.path = folder;
    this.session = path.join(folder, "session.its");
    this.transcript = path.join(folder, "session.out");
    this.owner = path.join(folder, "host.pid");
    this.isChecked = isChecked;
    this.lines = 0;                      // of the session
    this.away = "";                      // the name of the session that was put away
    this.file = this.out = -1;
  }

  /** Makes the folder if there is none, and takes it: two hosts would write the same session. */
  take() {
    attempted(this.path, () => mkdirSync(this.path, {recursive: true}));
    const other = existsSync(this.owner) ? Number(textOf(this.owner)) : 0;
    if (other && other !== process.pid && isAlive(other)) {
      throw new Wrong(this.path + ": process " + other + " serves it (else remove " + this.owner + ")");
    }
    attempted(this.owner, () => writeFileSync(this.owner, process.pid + "\n"));
  }

  /** The session so far, without a line or a block that is torn; nothing if there is none, or if it has ended: then it is put away. */
  begun() {
    if (!existsSync(this.session)) return "";
    const all = textOf(this.session), whole = wholeOf(all);
    if (hasEnded(whole) || !whole) {
      this.putAway();
      return "";
    }
    this.open();
    if (whole.length < all.length) attempted(this.session, () => ftruncateSync(this.file, whole.length));
    this.lines = split(whole).length;
    return whole;
  }

  /** Gives the session and its transcript names of their own. */
  putAway() {
    let at = 1;
    while (existsSync(path.join(this.path, "session-" + at + ".its"))) at += 1;
    this.away = "session-" + at + ".its";
    for (const [name, ending] of [[this.session, ".its"], [this.transcript, ".out"]]) {
      if (existsSync(name)) attempted(name, () => renameSync(name, path.join(this.path, "session-" + at + ending)));
    }
  }

  /** Begins a new session: it is there as a whole, or not at all.
   * @param {string} text */
  begin(text) {
    const fresh = this.session + ".new";
    attempted(fresh, () => {
      const file = openSync(fresh, "w");
      writeAll(file, text);
      fsyncSync(file);
      closeSync(file);
      renameSync(fresh, this.session);
    });
    this.open();
    this.lines = split(text).length;
  }

  /** Opens the session to add to it. */
  open() { this.file = attempted(this.session, () => openSync(this.session, "a")); }

  /** The lines of the transcript that was kept before, without one that is torn. */
  toldBefore() { return existsSync(this.transcript) ? split(wholeOf(textOf(this.transcript))) : []; }

  /** Begins the transcript anew, if it is kept. */
  beginTranscript() {
    if (this.isChecked) this.out = attempted(this.transcript, () => openSync(this.transcript, "w"));
  }

  /** Adds lines to the session.
   * @param {string[]} lines */
  add(lines) {
    this.lines += lines.length;
    this.write(this.file, this.session, joined(lines));
  }

  /** Adds lines to the transcript, if it is kept.
   * @param {string[]} lines */
  told(lines) { if (this.out >= 0 && lines.length) this.write(this.out, this.transcript, joined(lines)); }

  /** Writes at the end of a file. If this fails the session cannot go on: nobody may see what is not kept.
   * @param {number} file
   * @param {string} name
   * @param {string} text */
  write(file, name, text) {
    try {
      writeAll(file, text);
    } catch (problem) {
      throw new Over(systemError(name, problem).message);
    }
  }

  /** Waits until what was added to the session is on the disk.
   * @returns {Promise<void>} */
  kept() {
    return new Promise((resolve, reject) => fdatasync(this.file, problem =>
      problem ? reject(new Over(systemError(this.session, problem).message)) : resolve()));
  }

  /** Closes the files, and leaves the folder. */
  close() {
    for (const file of [this.file, this.out]) if (file >= 0) closeSync(file);
    this.file = this.out = -1;
    if (existsSync(this.owner)) unlinkSync(this.owner);
  }
}

/** Whether a process is there.
 * @param {number} other */
function isAlive(other) {
  try {
    process.kill(other, /** @type {*} */ (0));
    return true;
  } catch (problem) {
    return /** @type {*} */ (problem).code === "EPERM";
  }
}
