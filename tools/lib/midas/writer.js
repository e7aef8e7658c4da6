// Shared by the page and the commands: the text that is written for a MIDAS text, and the words that it gives: the second pass.

import {withoutTabs} from "./characters.js";
import {whyUnknown} from "./known.js";
import {Naming} from "./naming.js";
import {Phrase, Phrasing} from "./phrasing.js";
import {Placed, Pool} from "./placed.js";
import {START} from "./statements.js";
import {HALF, Refused, Text, Word, placeAt, sizeOf} from "./tree.js";
import {Unknown, lineNamed} from "./values.js";

/** @typedef {import("./layout.js").Layout} Layout */
/** @typedef {import("./tree.js").Place} Place */
/** @typedef {import("./tree.js").Statement} Statement */

const OPERATION = 8, COMMENT = 32;       // the columns at which statements and comments begin
const LONGEST = 255;                     // bytes of a line
const SYMBOLS = 512;                     // symbols of a text
const HERE = /(?<![\w.$%])\.(?![\w.$%])/; // the location in an expression
const PREVIEW = 44;                      // so much of a statement is shown in a comment

/** The names of the job and its console; without a second name it is that of TITLE, or of the file.
 * @typedef {{user: string, job: string, console: string}} Job */

/** A text for the assembler here, with the words and the symbols that it gives, and the place at which the job starts.
 * @typedef {{text: string, words: Map<number, number>, symbols: Map<string, number>, start: number}} Made */

/** A comment without tabs and without what is no ASCII.
 * @param {string} comment */
function shown(comment) { return withoutTabs(comment).replace(/[^ -~]/g, "?").trimEnd(); }

/** A text with one blank between its words.
 * @param {string} text */
function squeezed(text) { return text.trim().split(/\s+/).join(" "); }

/** A statement as it is written, for a comment: in one line, and cut if it is long.
 * @param {string} statement */
function sourceOf(statement) {
  const lines = statement.includes("\n") ? statement.split("\n").map(line => squeezed(line.split(";")[0])) : [statement];
  const text = shown(squeezed(lines.filter(Boolean).join(" ? ")));
  return text.length <= PREVIEW ? text : text.slice(0, PREVIEW - 3).replace(/[ ?]+$/, "") + " ..";
}

/** A text as a name of a job.
 * @param {string} text */
function sixbitName(text) { return text.toUpperCase().replace(/[^!-:<-_]/g, "").slice(0, 6) || "MIDAS"; }

/** Writes a text. */
class Writer {
  /** @param {Layout} layout
   * @param {string} name
   * @param {Job} job */
  constructor(layout, name, job) {
    this.layout = layout;
    this.values = layout.values;
    this.job = job;
    this.naming = new Naming(this.values, layout.placed.reduce((sum, one) => sum + (one instanceof Pool ? one.slots.length : 0), 0));
    /** @type {string[]} */
    this.lines = [];
    /** @type {Map<number, number>} */
    this.words = new Map();
    /** @type {Map<number, Place>} */
    this.given = new Map();              // the source of the word of an address
    /** @type {Set<string>} */
    this.above = new Set();              // symbols that lines above define
    /** @type {Map<string, number>} */
    this.symbols = new Map();            // what lines define, by the names that are written
    this.start = 0;
    this.at = placeAt(1, 1);             // the statement that is written
    this.head(name);
    this.begun = false;                  // a line says what the location is
    for (const one of layout.placed) {
      this.begin(one);
      if (one instanceof Pool) this.pool(one); else this.placed(one);
    }
  }

  // Lines

  /** A line; labels that do not fit before the statement are on lines of their own.
   * @param {string[]} labels
   * @param {string} statement
   * @param {string} [comment] */
  line(labels, statement, comment = "") {
    for (const label of labels.slice(0, -1)) this.lines.push(label + ":");
    let text = labels.length ? labels[labels.length - 1] + ":" : "";
    if (statement) {
      text = text.padEnd(OPERATION) + statement;
      if (text.length > LONGEST) {
        throw new Refused(this.at, "this gives a line of more than " + LONGEST + " characters; make the expression shorter");
      }
    }
    if (comment && text) text = (text.length < COMMENT ? text.padEnd(COMMENT) : text + " ") + comment;
    this.lines.push((text || comment).slice(0, LONGEST).trimEnd());
  }

  /** A symbol that a line defines, by the name that is written.
   * @param {string} name
   * @param {number} value
   * @param {Place} at */
  define(name, value, at) {
    if (this.symbols.size === SYMBOLS) {
      throw new Refused(at, "symbol " + (SYMBOLS + 1) + ", literals among them: the assembler has room for " + SYMBOLS);
    }
    this.symbols.set(name, value);
    return name;
  }

  /** A symbol of the source that a line defines.
   * @param {string} name
   * @param {Place} at */
  own(name, at) {
    this.above.add(name);
    return this.define(this.naming.of(name), this.values.named(name, at), at);
  }

  /** What the text begins with: its source, which names are others, and the job.
   * @param {string} name */
  head(name) {
    this.lines.push(shown("; Made by tools/midas from " + name + ". Numbers are octal.").slice(0, LONGEST));
    for (const [long, short] of this.layout.shortened) {
      if (this.values.entries.has(short)) this.lines.push("; MIDAS reads six characters of a name: " + long + " is " + short + ".");
    }
    for (const [old, own] of this.naming.renamed()) this.lines.push("; The symbol " + old + " of the source is " + own + " here.");
    const titles = this.layout.placed.flatMap(one => one instanceof Placed && one.statement.kind === "TITLE" ? [one.statement.name] : []);
    const title = titles.length ? titles[0].trim().split(/\s+/)[1] : undefined;
    const file = name.slice(name.lastIndexOf("/") + 1).split(".")[0];
    const job = this.job.job || sixbitName(title === undefined ? file : title);
    this.lines.push(" ".repeat(OPERATION) + "JOB " + this.job.user + " " + job + " " + this.job.console);
  }

  /** The location at which a text without LOC begins, before the first line that asks for it.
   * @param {Placed | Pool} one */
  begin(one) {
    const statement = one instanceof Placed ? one.statement : null;
    const asks = !statement || statement.labels.length > 0 || !["TITLE", "REMARK", "NOTHING", "EQUALS"].includes(statement.kind) ||
      statement.kind === "EQUALS" && HERE.test(statement.source);
    if (asks && !this.begun && !(statement && statement.kind === "LOC" && !statement.labels.length)) {
      this.line([], "LOC " + START.toString(8), "; a text without LOC begins here");
    }
    this.begun = this.begun || asks;
  }

  /** The comment of a line: what the source says, if the line says less, and the comment of the source.
   * @param {Phrase} phrase
   * @param {string} source
   * @param {string} comment */
  comment(phrase, source, comment) {
    const told = phrase.less ? sourceOf(source) : "";
    return shown([told ? "; " + told : "", comment].filter(Boolean).join(" "));
  }

  // Statements

  /** Writes something; a symbol that nothing defines is refused.
   * @param {Place} at
   * @param {() => void} act */
  knowing(at, act) {
    try {
      act();
    } catch (problem) {
      if (!(problem instanceof Unknown)) throw problem;
      throw new Refused(problem.at || at, whyUnknown(problem.symbol, this.values.entries.keys()));
    }
  }

  /** A statement of the source.
   * @param {Placed} one */
  placed(one) {
    const {statement} = one;
    this.at = statement.at;
    const labels = statement.labels.map(({name, at}) => this.own(name, at));
    this.knowing(statement.at, () => this.statement(one, labels));
  }

  /** The lines of a statement.
   * @param {Placed} one
   * @param {string[]} labels */
  statement({statement, content, location}, labels) {
    const {kind, source, comment, at} = statement;
    if (kind === "WORDS" && content) this.content(content, location, labels, source, comment, at);
    else if (kind === "EQUALS" && content) this.equals(statement, content, location, labels);
    else if ((kind === "LOC" || kind === "BLOCK") && content) this.location(statement, content, location, labels);
    else if (kind === "END" && content) {
      const phrase = this.phrasing(location).expression(content);
      this.start = this.values.of(content) % (HALF + 1);
      this.line(labels, "GO " + phrase.text, this.comment(phrase, source, comment));
    } else if (kind === "TITLE" || kind === "REMARK") this.line(labels, "", shown("; " + source + (comment ? " " + comment : "")));
    else this.alone(statement, labels);
  }

  /** LOC or BLOCK.
   * @param {Statement} statement
   * @param {Word | Text} content
   * @param {number} location
   * @param {string[]} labels */
  location({kind, source, comment}, content, location, labels) {
    let phrase = this.phrasing(location, this.above).expression(content);
    if (kind === "BLOCK") {
      if (phrase.text.startsWith("0-")) phrase = new Phrase(this.values.of(content).toString(8), true);
      phrase = new Phrase(".+").then(phrase);
    }
    this.line(labels, "LOC " + phrase.text, this.comment(new Phrase("", phrase.less || kind === "BLOCK"), source, comment));
  }

  /** Labels alone, a comment, or an empty line.
   * @param {Statement} statement
   * @param {string[]} labels */
  alone(statement, labels) {
    const comment = shown(statement.comment);
    if (comment && !labels.length) this.lines.push((" ".repeat(statement.indent ? OPERATION : 0) + comment).slice(0, LONGEST));
    else this.line(labels, "", comment);
  }

  /** How expressions are written at a location.
   * @param {number} location
   * @param {Set<string> | null} [above] */
  phrasing(location, above = null) { return new Phrasing(this.values, this.naming, location, above); }

  /** The words of a statement.
   * @param {Word | Text} content
   * @param {number} location
   * @param {string[]} labels
   * @param {string} source
   * @param {string} comment
   * @param {Place} at */
  content(content, location, labels, source, comment, at) {
    const values = content instanceof Text ? content.words : [this.values.of(content)];
    this.phrasing(location).content(content).forEach((phrase, place) => {
      this.word(location + place, values[place], at);
      this.line(place ? [] : labels, phrase.text, this.comment(phrase, place ? "" : source, place ? "" : comment));
    });
  }

  /** A word at a location that has none yet.
   * @param {number} location
   * @param {number} value
   * @param {Place} at */
  word(location, value, at) {
    const before = this.given.get(location);
    if (before) throw new Refused(at, location.toString(8) + " gets a second word; line " + lineNamed(before) + " gave it one");
    this.words.set(location, value);
    this.given.set(location, at);
  }

  /** A symbol that gets a value: a line of its own, or a comment if its uses are written as numbers.
   * @param {Statement} statement
   * @param {Word | Text} content
   * @param {number} location
   * @param {string[]} labels */
  equals({name, source, comment, at}, content, location, labels) {
    if (labels.length) this.line(labels, "");
    const value = this.values.of(content).toString(8);
    if (!this.naming.isWritten(name)) {
      this.line([], "", shown("; " + squeezed(source) + " (" + value + "), written out where it is used " + comment));
      return;
    }
    const isPlain = content instanceof Word && content.isPlain;
    const phrase = isPlain ? this.phrasing(location, this.above).expression(content) : new Phrase(value, true);
    const text = (this.own(name, at) + " = " + phrase.text).padEnd(COMMENT);
    this.lines.push((text + this.comment(phrase, source, comment)).slice(0, LONGEST).trimEnd());
  }

  // Literals and variables

  /** Literals and variables.
   * @param {Pool} pool */
  pool(pool) {
    const what = [...pool.slots.length ? ["literals"] : [], ...pool.variables.length ? ["variables"] : []].join(" and ");
    this.lines.push(shown("; The " + what + (pool.moved ? ", here since " + pool.moved : "")));
    if (pool.moved) this.line([], "LOC " + pool.location.toString(8));
    let where = pool.location;
    for (const slot of pool.slots) {
      let labels = [this.define(this.naming.literals[slot.number - 1], where, pool.at)];
      for (const {content, source, comment} of slot.items) {
        this.knowing(pool.at, () => this.content(content, where, labels, source, comment, pool.at));
        where += sizeOf(content);
        labels = [];
      }
    }
    for (const {name, size} of pool.variables) {
      const label = this.own(name, pool.at);
      for (let offset = 0; offset < size; offset += 1) {
        this.word(where + offset, 0, pool.at);
        this.line(offset ? [] : [label], "WORD 0", offset ? "" : "; a variable");
      }
      where += size;
    }
  }
}

/** The text of a layout.
 * @param {Layout} layout
 * @param {string} name
 * @param {Job} job
 * @returns {Made} */
export function written(layout, name, job) {
  const {lines, words, symbols, start} = new Writer(layout, name, job);
  return {text: lines.join("\n") + "\n", words, symbols, start};
}
