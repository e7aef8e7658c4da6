// Shared by the page and the commands: the tokens of a MIDAS text, made into statements.

import {Expressions, hasOperation} from "./expressions.js";
import {isTaken} from "./known.js";
import {SoFar} from "./sofar.js";
import {signed} from "./arithmetic.js";
import {Num, Refused, Word, statementOf} from "./tree.js";
import {SeveralWords, Unknown} from "./values.js";

/** @typedef {import("./lexer.js").Token} Token */
/** @typedef {import("./tree.js").Place} Place */
/** @typedef {import("./tree.js").Statement} Statement */

/** A text without LOC begins here; below are the accumulators and the word of the interrupts. */
export const START = 0o100;

/** What is wanted after a name.
 * @type {Record<string, string>} */
const WANTED = {LOC: "a location", BLOCK: "how many words it reserves", END: "the place at which the job starts"};

/** Reads statements up to END. */
class Statements extends Expressions {
  /** @param {string} source
   * @param {import("./pieces.js").Insert} [insert] */
  constructor(source, insert) {
    super(source, insert);
    /** @type {Set<string>} */
    this.variables = new Set();
    /** @type {Statement[]} */
    this.statements = [];
    this.soFar = new SoFar(START);
  }

  /** @param {string} name */
  hasDefined(name) {
    return this.statements.some(one => one.name === name || one.labels.some(label => label.name === name));
  }

  /** @param {string} name */
  isDefined(name) { return super.isDefined(name) || this.soFar.values.entries.has(name); }

  /** @param {Token} token */
  evaluated(token) {
    const first = this.peek();
    try {
      return signed(this.soFar.values.of(this.sum()));
    } catch (problem) {
      if (problem instanceof Unknown) {
        throw new Refused(problem.at || first.at, problem.symbol + " is not known here: what " + token.name + " names has to be defined above it");
      }
      if (problem instanceof SeveralWords) throw new Refused(first.at, problem.message);
      throw problem;
    }
  }

  /** The next token. The first one that has ' after it reserves the word of a variable, at VARIABLES or at the end. */
  take() {
    const token = super.take();
    if (token.variable) this.declare(token);
    return token;
  }

  /** A variable of one word.
   * @param {Token} token */
  declare(token) {
    if (this.variables.has(token.name)) return;
    this.variables.add(token.name);
    this.add(statementOf("RESERVE", token.at, {name: token.name, content: new Word({address: new Num(1)})}));
  }

  /** A statement more.
   * @param {Statement} statement */
  add(statement) {
    this.statements.push(statement);
    this.soFar.note(statement);
  }

  /** All statements, up to END and with it. */
  text() {
    let begun = null;                    // the first statement of the line, which gets its comment
    for (;;) {
      const statement = this.statement(), after = this.peek(), remarks = this.remarks.splice(0);
      remarks.forEach(remark => this.add(remark));
      begun = begun || remarks[remarks.length - 1] || null;
      if (statement.kind !== "NOTHING" || statement.labels.length || !begun) this.add(statement);
      begun = begun || statement;
      this.checkEnd(statement, after);
      if (after.kind === "LINE") {
        begun.comment = after.name;
        begun.indent = after.at.column - 1;
        begun = null;
      }
      if (statement.kind === "END") return this.statements;
      this.take();
    }
  }

  /** A statement has to be followed by its end.
   * @param {Statement} statement
   * @param {Token} after */
  checkEnd(statement, after) {
    if (after.kind === "END" && statement.kind !== "END") {
      throw new Refused(after.at, "the text ends without END: its last line is END with the place at which the job starts");
    }
    if (!["LINE", "BREAK", "END"].includes(after.kind)) {
      throw new Refused(after.at, this.shown(after) + " is left over after the statement");
    }
  }

  /** One statement with its labels. */
  statement() {
    const labels = [];
    this.atStart = true;
    while (this.peek().kind === "SYMBOL" && this.isMark([":"], 1)) {
      const label = this.own(this.take());
      this.take();
      this.soFar.label(label.name, label.at);
      labels.push(label);
    }
    const first = this.peek(), before = this.last;
    this.atStart = false;
    const statement = this.isMark(["="], 1) ? this.assignment() : this.pseudo() || this.words();
    statement.labels = labels;
    statement.source = this.last && this.last !== before ? this.between(first, this.last).trim() : "";
    this.checkPass(statement, first);
    return statement;
  }

  /** What one pass of MIDAS alone reads may define symbols, and gives no words.
   * @param {Statement} statement
   * @param {Token} first */
  checkPass(statement, first) {
    const pass = this.passOf(first);
    if (pass && (statement.labels.length || !["NOTHING", "EQUALS", "REMARK", "TITLE"].includes(statement.kind))) {
      throw new Refused(first.at, "IF" + pass + " is read in one pass of MIDAS alone, so it may define symbols and macros, and gives no words");
    }
  }

  /** A symbol that the text itself defines.
   * @param {Token} token */
  own(token) {
    if (token.kind !== "SYMBOL" || token.name === ".") {
      throw new Refused(token.at, this.shown(token) + " is no symbol that can be given a value; LOC sets the location");
    }
    if (isTaken(token.name)) throw new Refused(token.at, token.name + " is a name of MIDAS itself, which this would take away; use another one");
    if (this.macros.has(token.name)) throw new Refused(token.at, token.name + " is a macro of this text; use another name");
    return {name: token.name, at: token.at};
  }

  /** A symbol that gets a value. */
  assignment() {
    if (this.peek().name === ".MLLIT") return this.remarkLine();
    const {name, at} = this.own(this.take());
    this.take();
    if (this.isOver()) throw new Refused(this.peek().at, "a value is wanted for " + name);
    const content = this.word();
    if (hasOperation(content)) this.operations.add(name);
    return statementOf("EQUALS", at, {name, content});
  }

  /** A statement that means nothing here. */
  remarkLine() {
    const {at} = this.take();
    while (!["LINE", "BREAK", "END"].includes(this.peek().kind)) this.take();
    return statementOf("REMARK", at);
  }

  /** A statement that is neither a word nor an assignment; null if there is none. */
  pseudo() {
    const token = this.peek(), {name, at} = token;
    if (token.kind === "REST") {
      this.take();
      return statementOf(name.startsWith("TITLE") ? "TITLE" : "REMARK", at, {name});
    }
    if (token.kind !== "SYMBOL") return null;
    if (name === "CONSTA" || name === "VARIAB") {
      this.take();
      return statementOf(name === "CONSTA" ? "CONSTANTS" : "VARIABLES", at);
    }
    if (name === "LOC" || name === "BLOCK" || name === "END") {
      this.take();
      if (this.isOver()) throw new Refused(this.peek().at, WANTED[name] + " is wanted after " + name);
      return statementOf(name, at, {content: this.word()});
    }
    return name === ".SCALA" || name === ".VECTO" ? this.reserved(this.take()) : null;
  }

  /** Variables by name; .VECTOR has the number of words of each in parentheses.
   * @param {Token} token */
  reserved(token) {
    for (;;) {
      const {name, at} = this.own(this.take());
      let content = new Word({address: new Num(1)});
      if (this.isMark(["("])) content = new Word({address: this.inside(this.take(), ")")});
      this.variables.add(name);
      this.add(statementOf("RESERVE", at, {name, content}));
      if (!this.isMark([","])) return statementOf("REMARK", token.at);
      this.take();
    }
  }

  /** A word, several words of text, or nothing. */
  words() {
    const {at} = this.peek();
    return this.isOver() ? statementOf("NOTHING", at) : statementOf("WORDS", at, {content: this.word()});
  }
}

/** The statements of a text, and the names of which only a part counts.
 * @param {string} source
 * @param {import("./pieces.js").Insert} [insert] */
export function parsed(source, insert) {
  const parser = new Statements(source, insert);
  return {statements: parser.text(), shortened: parser.shortened};
}

/** The symbols that are given more than one value.
 * @param {Statement[]} statements */
export function severalValues(statements) {
  const given = statements.filter(one => one.kind === "EQUALS").map(one => one.name);
  return new Set(given.filter((name, at) => given.indexOf(name) !== at));
}
