// Shared by the page and the commands: what comes from a terminal by telnet: the keys that are typed there, and what is answered to the
// terminal's options. Nothing here needs a socket.

import {octal} from "./words.js";

export const INTERRUPT = 0o32;           // Control-Z
const RETURN = 0o15, LINE_FEED = 0o12, RUBOUT = 0o177, LAST_KEY = 0o177, ERASE_LINE = 0o25;
const IAC = 255, DONT = 254, DO = 253, WONT = 252, WILL = 251, SB = 250, SE = 240;
const EL = 248, EC = 247, AYT = 246, IP = 244, BRK = 243;
const ECHO = 1, SUPPRESS = 3;            // the options of a terminal that sends each key, and leaves the echo to the job

/** What came: keys, and bytes for the terminal.
 * @typedef {{keys: number[], answers: number[]}} Came */

/** What is asked of a terminal at first: each key at once, and no echo of its own. */
export const OPENING = [IAC, WILL, ECHO, IAC, WILL, SUPPRESS, IAC, DO, SUPPRESS];

/** The commands that are keys. The others are passed over.
 * @type {Record<number, number>} */
const KEYS = {[EC]: RUBOUT, [EL]: ERASE_LINE, [IP]: INTERRUPT, [BRK]: INTERRUPT};

/** One terminal, whose bytes come in any pieces. */
export class Telnet {
  /** @param {number} console that it is */
  constructor(console) {
    this.console = console;
    this.state = "keys";                 // or "command", "option", "sub", "subcommand"
    this.verb = 0;                       // of the option that is coming
    this.afterReturn = false;            // the last key was a return, which may be the first byte of two
    this.sendsKeys = false;              // the terminal has agreed to send each key: a line feed is a key of its own
    this.own = new Set([ECHO, SUPPRESS]);                // options that are on here
    this.others = new Set([SUPPRESS]);                   // options that the terminal was asked for
    /** @type {Came} */
    this.came = {keys: [], answers: []};
  }

  /** Takes bytes of the terminal.
   * @param {Iterable<number>} bytes
   * @returns {Came} */
  feed(bytes) {
    this.came = {keys: [], answers: []};
    for (const byte of bytes) this.take(byte);
    return this.came;
  }

  /** Takes one byte.
   * @param {number} byte */
  take(byte) {
    switch (this.state) {
      case "command": return this.command(byte);
      case "option": return this.option(byte);
      case "sub":
        if (byte === IAC) this.state = "subcommand";
        return;
      case "subcommand":
        this.state = byte === SE ? "keys" : "sub";
        return;
      default:
        if (byte === IAC) this.state = "command";
        else this.key(byte);
    }
  }

  /** The byte after an IAC.
   * @param {number} byte */
  command(byte) {
    this.state = "keys";
    if (byte >= WILL && byte <= DONT) [this.state, this.verb] = ["option", byte];
    else if (byte === SB) this.state = "sub";
    else if (byte === AYT) this.came.answers.push(...[..."\r\n[console " + octal(this.console) + " of its]\r\n"].map(one => one.charCodeAt(0)));
    else if (KEYS[byte] !== undefined) this.came.keys.push(KEYS[byte]);
    this.afterReturn = false;
  }

  /** The option of a WILL, WONT, DO or DONT. It is answered if something changes, so no two ends answer each other for ever.
   * @param {number} option */
  option(option) {
    const {verb} = this, isOwn = verb === DO || verb === DONT, on = isOwn ? this.own : this.others;
    this.state = "keys";
    if (verb === DO && this.own.has(option)) this.sendsKeys = true;
    else if (verb === DO || verb === WILL) {
      if (!on.has(option)) this.came.answers.push(IAC, verb === DO ? WONT : DONT, option);
    } else if (on.delete(option)) {
      this.came.answers.push(IAC, isOwn ? WONT : DONT, option);
      if (isOwn) this.sendsKeys = false;
    }
  }

  /** A byte that is typed. Return comes as CR LF, CR NUL or CR alone; from a terminal that sends lines also as LF. A byte of 8 bits is no key.
   * @param {number} byte */
  key(byte) {
    const isSecond = this.afterReturn && (byte === LINE_FEED || byte === 0);
    this.afterReturn = byte === RETURN;
    if (isSecond || byte > LAST_KEY) return;
    this.came.keys.push(byte === LINE_FEED && !this.sendsKeys ? RETURN : byte);
  }
}
