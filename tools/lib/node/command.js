// For the commands, in node: what each does at its ends: its words, its files, its output, and one line for whatever is wrong.

import {readFileSync, writeSync} from "node:fs";
import process from "node:process";

import {Wrong} from "../words.js";

/** What a word of a command may be.
 * @typedef {object} Word
 * @property {string} name as `--by`, or as a reader sees it: `SESSION`
 * @property {string} [key] its key among the values; else its name in small letters
 * @property {string} about what it does
 * @property {string} [takes] what an option takes, as `N`; without it the option is on or off
 * @property {boolean} [optional] it may be left out
 * @property {boolean} [many] it may be given more than once
 * @property {boolean} [whole] its value is a decimal number
 * @property {string[]} [choices] its values
 * @property {*} [otherwise] its value if it is not given */

/** The words of a command. `about` says what it does, and is its help. */
export class Words {
  /** @param {string} name
   * @param {string} about
   * @param {Word[]} words */
  constructor(name, about, words) {
    this.name = name;
    this.about = about.trim();
    this.options = words.filter(word => word.name.startsWith("-"));
    this.places = words.filter(word => !word.name.startsWith("-"));
  }

  /** Words that are wrong.
   * @param {string} said
   * @returns {Wrong} */
  wrong(said) { return new Wrong(said + " (" + this.name + " --help says more)"); }

  /** The values of the words, by their keys.
   * @param {string[]} given
   * @returns {Record<string, *>} */
  values(given) {
    /** @type {Record<string, *>} */
    const values = {};
    for (const word of [...this.options, ...this.places]) values[keyOf(word)] = word.many ? [] : startOf(word);
    const plain = this.takeOptions([...given], values), unknown = plain.unknown;
    for (const place of this.places) {
      if (place.many) {
        const after = this.places.length - this.places.indexOf(place) - 1;
        values[keyOf(place)] = plain.words.splice(0, Math.max(plain.words.length - after, 0));
      } else if (plain.words.length) values[keyOf(place)] = this.checked(place, /** @type {string} */ (plain.words.shift()));
    }
    const missing = this.places.filter(place => !place.optional && !(place.many ? values[keyOf(place)].length : values[keyOf(place)]));
    if (missing.length) throw this.wrong("the following arguments are required: " + missing.map(place => place.name).join(", "));
    if (unknown.length || plain.words.length) throw this.wrong("unrecognized arguments: " + [...unknown, ...plain.words].join(" "));
    return values;
  }

  /** Takes the options, and gives the other words, and the options that are unknown.
   * @param {string[]} given
   * @param {Record<string, *>} values */
  takeOptions(given, values) {
    /** @type {{words: string[], unknown: string[]}} */
    const found = {words: [], unknown: []};
    while (given.length) {
      const word = /** @type {string} */ (given.shift());
      if (word === "--") return {...found, words: [...found.words, ...given]};
      if (word === "-h" || word === "--help") {
        write(this.help());
        throw new Ended(0);
      }
      if (!/^-[^0-9]/.test(word)) {
        found.words.push(word);
        continue;
      }
      const [name, ...own] = word.split("="), option = this.options.find(one => one.name === name);
      if (!option) found.unknown.push(word);
      else if (!option.takes && !option.choices) values[keyOf(option)] = true;
      else {
        const value = own.length ? own.join("=") : given.length && !/^-[^0-9]/.test(given[0]) ? given.shift() : undefined;
        if (value === undefined) throw this.wrong("argument " + name + ": expected one argument");
        const checked = this.checked(option, value);
        values[keyOf(option)] = option.many ? [...values[keyOf(option)], checked] : checked;
      }
    }
    return found;
  }

  /** The value of a word.
   * @param {Word} word
   * @param {string} value */
  checked(word, value) {
    if (word.choices && !word.choices.includes(value)) {
      throw this.wrong("argument " + word.name + ": invalid choice: '" + value + "' (choose from " +
                       word.choices.map(one => "'" + one + "'").join(", ") + ")");
    }
    if (!word.whole) return value;
    if (!/^-?[0-9]+$/.test(value)) throw this.wrong("argument " + word.name + ": invalid int value: '" + value + "'");
    return Number(value);
  }

  /** The help. */
  help() {
    const shown = (/** @type {Word} */ word) => word.name.startsWith("-") && (word.takes || word.choices) ?
      word.name + " " + (word.takes || "{" + (word.choices || []).join(",") + "}") : word.name;
    const usage = [...this.options.map(word => "[" + shown(word) + "]"), ...this.places.map(word =>
      (word.optional ? "[" + word.name + "]" : word.name) + (word.many ? " .." : ""))];
    const rows = [...this.places, ...this.options].map(word => [shown(word), word.about]);
    rows.push(["-h, --help", "show this help and end"]);
    const width = Math.max(...rows.map(([name]) => name.length));
    return ["usage: " + [this.name, "[-h]", ...usage].join(" "), "", this.about, "",
            ...rows.map(([name, about]) => "  " + name.padEnd(width) + "  " + about)].join("\n") + "\n";
  }
}

/** The key of a word among the values.
 * @param {Word} word */
function keyOf(word) { return word.key || word.name.replace(/^-+/, "").toLowerCase(); }

/** The value of a word that is not given.
 * @param {Word} word */
function startOf(word) {
  return word.otherwise !== undefined ? word.otherwise : word.name.startsWith("-") && !word.takes && !word.choices ? false : undefined;
}

/** The command is over, with a status. */
export class Ended extends Error {
  /** @param {number} status */
  constructor(status) {
    super("ended");
    this.status = status;
  }
}

/** Errors of the system that node names in other words than a shell does.
 * @type {Record<string, string>} */
const SYSTEM = {ENOENT: "No such file or directory", EISDIR: "Is a directory", ENOTDIR: "Not a directory", EACCES: "Permission denied",
                EPIPE: "Broken pipe", ENOSPC: "No space left on device", EBADF: "Bad file descriptor", EIO: "Input/output error",
                ENAMETOOLONG: "File name too long", ELOOP: "Too many levels of symbolic links"};

/** What an error of the system says, as a complaint about something; any other error is thrown on.
 * @param {string} what
 * @param {*} problem
 * @returns {Wrong} */
export function systemError(what, problem) {
  if (!problem || typeof problem.code !== "string" || !problem.syscall) throw problem;
  return new Wrong(what + ": " + (SYSTEM[problem.code] || problem.code));
}

/** The bytes of a file; of standard input if the path is `-`.
 * @param {string} path
 * @returns {Buffer} */
export function read(path) {
  if (path === "-" && process.env.ITS_NO_INPUT) throw new Wrong("standard input is closed");
  try {
    return readFileSync(path === "-" ? 0 : path);
  } catch (problem) {
    throw systemError(path, problem);
  }
}

/** The text of a file. Sessions and transcripts are ASCII; any other byte is kept as one character, so that it can be complained of.
 * @param {string} path */
export function textOf(path) { return read(path).toString("latin1"); }

/** Writes a text to standard output, at once.
 * @param {string} text */
export function write(text) {
  let rest = Buffer.from(text);
  while (rest.length) {
    try {
      rest = rest.subarray(writeSync(1, rest));
    } catch (problem) {
      if (/** @type {*} */ (problem).code !== "EAGAIN") throw systemError("standard output", problem);
      Atomics.wait(new Int32Array(new SharedArrayBuffer(4)), 0, 0, 5);
    }
  }
}

/** Says something on standard error, which may be closed.
 * @param {string} text */
export function say(text) {
  try {
    writeSync(2, text + "\n");
  } catch { /* nobody is there to be told */ }
}

/** Writes lines, many at a time; nothing at all if the first is wrong.
 * @param {Iterable<string>} lines */
export function writeLines(lines) {
  let waiting = [];
  for (const line of lines) {
    waiting.push(line + "\n");
    if (waiting.length < 1000) continue;
    write(waiting.join(""));
    waiting = [];
  }
  write(waiting.join(""));
}

/** Calls a command with the words that this process has, if this process was started for it. What is wrong gives one line on standard error
 * and status 1.
 * @param {string} name
 * @param {(given: string[]) => number | Promise<number>} main its exit status
 * @param {string} [file] the end of its path */
export async function command(name, main, file = "/commands/" + name + ".js") {
  if (!(process.argv[1] || "").endsWith(file)) return;
  process.on("SIGINT", () => process.exit(130));
  try {
    process.exitCode = await main(process.argv.slice(2));
  } catch (problem) {
    if (problem instanceof Ended) process.exitCode = problem.status;
    else if (problem instanceof Wrong) {
      say(name + ": " + problem.message.split("\n").join(" "));
      process.exitCode = 1;
    } else throw problem;
  }
}

/** A value as JSON on one line, in ASCII, with a blank after each comma and colon.
 * @param {*} value
 * @returns {string} */
export function asJson(value) {
  if (Array.isArray(value)) return "[" + value.map(asJson).join(", ") + "]";
  if (value && typeof value === "object") {
    return "{" + Object.entries(value).map(([key, one]) => asJson(key) + ": " + asJson(one)).join(", ") + "}";
  }
  return JSON.stringify(value).replace(/[^ -~]/g, one => "\\u" + one.charCodeAt(0).toString(16).padStart(4, "0"));
}
