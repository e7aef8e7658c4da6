// For the commands, in node: the terminal of somebody who sits at a console: its keys, what is shown on
// it, its status line, and its state, which is restored whatever happens.

import {spawnSync} from "node:child_process";
import {closeSync, writeSync} from "node:fs";
import os from "node:os";
import process from "node:process";
import {isatty} from "node:tty";

import {GIVEN_UP, LINE, QUIT} from "../editing.js";
import {visible} from "../keys.js";
import {encoded} from "../bytes.js";
import {filled, meansOf} from "./terminfo.js";

/** @typedef {import("../editing.js").Editor} Editor */
/** @typedef {import("./terminfo.js").Means} Means */

const BURST = 32;                        // so many keys are taken at once
const ENOUGH = 4096;                     // if so many wait, the rest is left in the terminal
const LEAST = 4, NARROWEST = 20;         // a window of fewer rows or columns has no status line
const ENDING = ["SIGINT", "SIGTERM", "SIGHUP", "SIGQUIT"];

/** The input has ended, or the terminal is gone. */
export class HungUp extends Error {}
/** A signal asks the tool to end. */
export class Signalled extends Error {}

/** The signals that end the tool, and the one that says that the window has another size. They are only
 * noted, so that no line is cut in its middle. */
export class Signals {
  constructor() {
    this.caught = 0;                     // the number of the signal that ends the tool
    this.isResized = false;
    this.isEditing = false;              // while a line is edited, SIGINT gives up the line alone
    this.givesUp = false;
    this.wake = () => {};
    for (const name of ENDING) {
      process.removeAllListeners(name);
      process.on(name, () => this.note(name));
    }
    process.on("SIGWINCH", () => {
      this.isResized = true;
      this.wake();
    });
    process.on("SIGTSTP", () => {});     // Control-Z is a key of the tool
  }

  /** A signal came.
   * @param {string} name */
  note(name) {
    if (name === "SIGINT" && this.isEditing) this.givesUp = true;
    else this.caught = os.constants.signals[name];
    this.wake();
  }

  /** Ends the tool if a signal asked for it. */
  check() { if (this.caught) throw new Signalled(); }
}

/** Closes the files that were a terminal, and are none now because it has hung up: node would fail at its
 * end, when it restores their modes.
 * @param {number[]} terminals */
function closeGone(terminals) { for (const file of terminals) if (!isatty(file)) closeSync(file); }

/** A person's terminal. */
export class Screen {
  /** @param {boolean} isPlain whether there is to be no status line
   * @param {Signals} signals */
  constructor(isPlain, signals) {
    this.signals = signals;
    /** @type {Means | null} */
    this.means = !isPlain && process.stdout.isTTY ? meansOf(process.env.TERM || "") : null;
    /** @type {[number, number] | null} */
    this.size = null;                    // columns and rows, while there is a status line
    this.isRaw = false;
    this.isAtMargin = true;
    this.statusShown = "";
    /** @type {number[]} */
    this.typed = [];                     // keys that came and were not taken yet
    this.isFull = false;                 // whether no more are asked for now
    this.hasEnded = false;
    this.wake = () => {};
    signals.wake = () => this.wake();
  }

  /** From now on keys come, and the terminal is left as it is if it hangs up. */
  open() {
    const terminals = [0, 1, 2].filter(isatty);
    process.on("exit", () => closeGone(terminals));
    process.stdin.on("data", (/** @type {Buffer} */ data) => this.take(data));
    for (const event of ["end", "error", "close"]) process.stdin.on(event, () => this.inputEnded());
    this.raw();
  }

  /** Whether there is a status line. */
  get hasStatus() { return this.size !== null; }

  /** Whether the window has another size. */
  get isResized() { return this.signals.isResized; }

  /** Ends the tool if a signal asked for it. */
  check() { this.signals.check(); }

  /** Keys have come.
   * @param {Buffer} data */
  take(data) {
    for (const key of data) this.typed.push(key);
    if (this.typed.length >= ENOUGH && !this.isFull) {
      process.stdin.pause();
      this.isFull = true;
    }
    this.wake();
  }

  /** Takes the first keys.
   * @param {number} count */
  taken(count) {
    const keys = this.typed.splice(0, count);
    if (this.isFull && this.typed.length < ENOUGH) {
      process.stdin.resume();
      this.isFull = false;
    }
    return keys;
  }

  /** No more keys will come. */
  inputEnded() {
    this.hasEnded = true;
    this.wake();
  }

  /** Writes bytes, given as characters. If the terminal is gone, that is the end of the input too.
   * @param {string} text */
  put(text) {
    let rest = Buffer.from(text, "latin1");
    while (rest.length) {
      try {
        rest = rest.subarray(writeSync(1, rest));
      } catch (problem) {
        if (/** @type {*} */ (problem).code !== "EAGAIN") throw new HungUp();
        Atomics.wait(new Int32Array(new SharedArrayBuffer(4)), 0, 0, 5);
      }
    }
  }

  /** Shows what a job put out.
   * @param {number[]} output */
  show(output) {
    const shown = visible(output);
    if (!shown) return;
    this.put(shown);
    this.isAtMargin = /[\r\n]$/.test(shown);
  }

  /** Shows lines of the tool's own, which begin at the margin.
   * @param {string} text */
  say(text) {
    const lineFeed = this.isRaw ? "\r\n" : "\n", start = this.isAtMargin ? "" : lineFeed;
    this.put(start + (text + "\n").replace(/[^\0-\x7f]/gu, "?").replace(/\n/g, lineFeed));
    this.isAtMargin = true;
  }

  /** Rings: something typed is lost. */
  bell() { this.put("\x07"); }

  /** From now on each key comes as it is, and none is echoed. Node leaves line feeds to be made into
   * carriage returns and line feeds, which `stty` stops. If the terminal is gone, no key comes. */
  raw() {
    process.stdin.setRawMode(true);
    spawnSync("stty", ["-opost"], {stdio: ["inherit", "ignore", "ignore"]});
    process.stdin.resume();
    this.isRaw = true;
  }

  /** The columns and rows of the window. */
  window() { return process.stdout.isTTY ? process.stdout.getWindowSize() : [0, 0]; }

  /** Makes the last row the status line, if the window has one to spare. */
  openStatus() {
    this.signals.isResized = false;
    if (!this.means) return;
    const {means} = this, [columns, rows] = this.window();
    if (rows < LEAST || columns < NARROWEST) return this.closeStatus();
    const room = this.size ? "" : "\n" + filled(means.cuu1);
    this.size = [columns, rows];
    this.put(room + filled(means.sc) + filled(means.csr, 0, rows - 2) + filled(means.rc));
    this.status(this.statusShown);
  }

  /** The whole window is text again. */
  closeStatus() {
    if (!this.size || !this.means) return;
    const {means} = this, [, rows] = this.window();
    this.put(filled(means.sc) + filled(means.csr, 0, Math.max(rows - 1, 1)) + filled(means.cup, rows - 1, 0) + filled(means.el) + filled(means.rc));
    this.size = null;
  }

  /** Shows a text on the status line.
   * @param {string} text */
  status(text) {
    this.statusShown = text;
    if (!this.size || !this.means) return;
    const {means, size: [columns, rows]} = this, line = text.slice(0, columns - 1).padEnd(columns - 1).replace(/[^\0-\x7f]/g, "?");
    this.put(filled(means.sc) + filled(means.cup, rows - 1, 0) + filled(means.rev) + line + filled(means.sgr0) + filled(means.rc));
  }

  /** Whether a key, a signal or the end of the input is there, without waiting for one. */
  async ready() {
    await new Promise(resolve => { setImmediate(resolve); });
    return this.isThere();
  }

  /** The same, of what has come. */
  isThere() { return this.typed.length > 0 || this.hasEnded || this.signals.caught > 0 || this.signals.isResized || this.signals.givesUp; }

  /** Waits for a key, a signal or the end of the input, so many seconds or for ever.
   * @param {number | null} seconds
   * @returns {Promise<void>} */
  async wait(seconds) {
    if (await this.ready() || seconds === 0) return;
    await /** @type {Promise<void>} */ (new Promise(resolve => {
      const late = seconds === null ? null : setTimeout(resolve, 1000 * seconds);
      this.wake = () => {
        if (late) clearTimeout(late);
        resolve();
      };
    }));
    this.wake = () => {};
  }

  /** Waits for keys: those that came before the interrupt key, and whether that came. What comes after it
   * is left.
   * @param {number | null} seconds
   * @param {number} interrupt
   * @returns {Promise<[number[], boolean]>} */
  async keys(seconds, interrupt) {
    await this.wait(seconds);
    this.signals.check();
    if (!this.typed.length && this.hasEnded) throw new HungUp();
    const some = this.typed.slice(0, BURST), at = some.indexOf(interrupt);
    this.taken(at < 0 ? some.length : at + 1);
    return [some.slice(0, at < 0 ? some.length : at).filter(key => key < 128), at >= 0];
  }

  /** A line that a person edits, one character for each byte; null at the end of the input. Control-C and
   * SIGINT give up a line, and the next one begins.
   * @param {Editor} editor
   * @returns {Promise<string | null>} */
  async line(editor) {
    for (;;) {
      this.signals.check();
      this.put(editor.begin(this.window()[0] || 80));
      await this.edited(editor);
      if (editor.done === QUIT) this.signals.note("SIGQUIT");
      else if (editor.done !== GIVEN_UP) return editor.done === LINE ? encoded(editor.line) : null;
    }
  }

  /** A line is edited until it is done.
   * @param {Editor} editor */
  async edited(editor) {
    this.signals.isEditing = true;
    try {
      while (!editor.done) {
        await this.wait(null);
        this.signals.check();
        if (this.signals.isResized) this.openStatus();
        if (this.signals.givesUp) this.put(encoded(editor.act("giveUp")));
        else if (this.typed.length) this.put(encoded(editor.key(this.taken(1)[0])));
        else if (this.hasEnded) throw new HungUp();
        this.signals.givesUp = false;
      }
    } finally {
      this.signals.isEditing = false;
    }
  }

  /** The terminal as it was before. It may be gone. */
  restore() {
    try {
      this.closeStatus();
      process.stdin.setRawMode(false);
    } catch { /* the terminal is gone */ }
    this.isRaw = false;
    process.stdin.pause();
  }
}
