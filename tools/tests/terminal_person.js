// For the tests of tools/terminal: somebody at a terminal of their own, who types, looks and waits. The terminal itself is made by
// terminal_pty.py, since node has none.

import {spawn} from "node:child_process";
import {readFileSync} from "node:fs";
import path from "node:path";
import {fileURLToPath} from "node:url";

import {Glass} from "../lib/glass.js";

const PTY = path.join(path.dirname(fileURLToPath(import.meta.url)), "terminal_pty.py");
const PATIENCE = 300;                    // seconds until something is taken to have failed: machines may be busy
const SEQUENCE = /\x1b(?:\[([?]?[0-9;]*)([A-Za-z@])|[()][AB0]|([78=>M]))/g;
const STATUS = /\x1b7(.*?)\x1b8/gs;      // what is drawn elsewhere on the screen: the status line
const BEGUN = /\x1b[^A-Za-z@78]*$/;      // a command that is not whole yet

/** What was waited for did not come. */
export class Missing extends Error {}

/** What came, without commands of the terminal and without status lines. What is not whole yet is left out, so that a longer text begins
 * with a shorter one.
 * @param {string} seen */
export function texts(seen) {
  const begun = seen.lastIndexOf("\x1b7"), whole = begun >= 0 && seen.indexOf("\x1b8", begun) < 0 ? seen.slice(0, begun) : seen;
  return whole.replace(BEGUN, "").replace(STATUS, "").replace(SEQUENCE, "");
}

/** Somebody at a terminal, at which a command runs. */
export class Person {
  /** @param {string[]} command
   * @param {{columns?: number, rows?: number, term?: string}} [window] */
  constructor(command, window = {}) {
    const {columns = 80, rows = 24, term = "xterm"} = window;
    this.glass = new Glass(Math.max(columns, 1), Math.max(rows, 1));
    this.seen = "";
    this.process = 0;
    /** @type {number | null} */
    this.status = null;
    /** @type {((attributes: number[]) => void)[]} */
    this.asked = [];
    this.wake = () => {};
    this.part = "";
    this.terminal = spawn("python3", [PTY, String(columns), String(rows), term, ...command], {stdio: ["pipe", "pipe", "inherit"]});
    this.terminal.stdin.on("error", () => {});
    this.terminal.stdout.on("data", (/** @type {Buffer} */ data) => this.take(data.toString()));
  }

  /** Something has happened at the terminal.
   * @param {string} data */
  take(data) {
    const lines = (this.part + data).split("\n");
    this.part = lines.pop() || "";
    for (const line of lines) this.happened(JSON.parse(line));
    this.wake();
  }

  /** One thing that has happened.
   * @param {{process?: number, seen?: string, attributes?: number[], ended?: number}} one */
  happened({process, seen, attributes, ended}) {
    if (process !== undefined) this.process = process;
    if (seen !== undefined) {
      this.seen += seen;
      this.glass.feed(seen);
    }
    if (attributes !== undefined) (this.asked.shift() || (() => {}))(attributes);
    if (ended !== undefined) this.status = ended;
  }

  /** Asks the terminal for something.
   * @param {object} request */
  ask(request) { this.terminal.stdin.write(JSON.stringify(request) + "\n"); }

  /** Types.
   * @param {string} text of any characters */
  type(text) { this.ask({type: Buffer.from(text).toString("latin1")}); }

  /** The window gets another size. The glass is new, as each terminal moves its text in its own way.
   * @param {number} columns
   * @param {number} rows */
  resize(columns, rows) {
    this.glass = new Glass(columns, rows);
    this.ask({size: [columns, rows]});
  }

  /** How the terminal treats keys and text.
   * @returns {Promise<number[]>} */
  attributes() {
    this.ask({attributes: true});
    return new Promise(resolve => { this.asked.push(resolve); });
  }

  /** Whether keys are shown as they are typed, and lines are edited: the local modes ECHO and ICANON. */
  async isRestored() { return ((await this.attributes())[3] & 0o12) === 0o12; }

  /** The terminal is gone. */
  hangUp() { this.ask({hangup: true}); }

  /** All that came, as text. */
  text() { return texts(this.seen); }

  /** Waits until something holds; what is missing if it does not.
   * @param {() => boolean} holds
   * @param {() => string} missing */
  async waitUntil(holds, missing) {
    const until = Date.now() + 1000 * PATIENCE;
    while (!holds()) {
      if (Date.now() > until || this.status !== null) throw new Missing(missing());
      await this.more(until - Date.now());
    }
  }

  /** Waits until something happens, so many milliseconds at most.
   * @param {number} most
   * @returns {Promise<void>} */
  more(most) {
    return new Promise(resolve => {
      const late = setTimeout(resolve, most);
      this.wake = () => {
        clearTimeout(late);
        resolve();
      };
    });
  }

  /** Waits until a text comes after a place in what came: the place after it.
   * @param {string} wanted
   * @param {number} [since] */
  async wait(wanted, since = 0) {
    await this.waitUntil(() => this.text().includes(wanted, since),
                         () => JSON.stringify(wanted) + " does not come; what came ends with " + JSON.stringify(this.text().slice(-300)));
    return this.text().indexOf(wanted, since) + wanted.length;
  }

  /** Waits until a row of the screen has a text: the row.
   * @param {number} row
   * @param {string} wanted */
  async waitGlass(row, wanted) {
    await this.waitUntil(() => this.glass.lines()[row].includes(wanted),
                         () => "row " + row + " has not " + JSON.stringify(wanted) + ": " + JSON.stringify(this.glass.lines()));
    return this.glass.lines()[row];
  }

  /** How many bytes had come as soon as what came was so long as a text.
   * @param {number} place */
  bytesUntil(place) {
    let few = 0, many = this.seen.length;
    while (few < many) {
      const middle = (few + many) >> 1;
      if (texts(this.seen.slice(0, middle)).length >= place) many = middle; else few = middle + 1;
    }
    return few;
  }

  /** Waits until a status line that has a text is drawn after so many bytes.
   * @param {string} wanted
   * @param {number} since */
  async waitStatus(wanted, since) {
    await this.waitUntil(() => [...this.seen.slice(since).matchAll(STATUS)].some(([, drawn]) => drawn.includes(wanted)),
                         () => "no status line has " + JSON.stringify(wanted) + ": " + JSON.stringify(this.seen.slice(since)));
  }

  /** Waits until the command sleeps: what it has shown was the last that it did, and it waits for a key. */
  async waitAsleep() {
    const state = () => /\) (\S)/.exec(readFileSync("/proc/" + this.process + "/stat", "latin1"))?.[1];
    for (let left = 100 * PATIENCE; state() !== "S"; left -= 1) {
      if (!left) throw new Missing("the command does not come to rest");
      await this.more(10);
    }
  }

  /** Waits for the end of the command: its status, or minus the signal that ended it.
   * @returns {Promise<number>} */
  async ended() {
    const until = Date.now() + 1000 * PATIENCE;
    while (this.status === null) {
      if (Date.now() > until) throw new Missing("the command does not end; what came ends with " + JSON.stringify(this.text().slice(-300)));
      await this.more(until - Date.now());
    }
    return this.status;
  }

  /** Leaves: a command that still runs is ended.
   * @returns {Promise<void>} */
  leave() {
    this.terminal.stdin.end();
    return this.terminal.exitCode === null ? new Promise(resolve => { this.terminal.on("exit", () => resolve()); }) : Promise.resolve();
  }
}
