// Shared by the page and the commands: what a MIDAS text asks for with its macros, repeats, inserted files and conditions.

import {Piece, plainText} from "./characters.js";
import {GIVEN, PIECES, isTaken} from "./known.js";
import {pastBlanks, significant, takeArgument, takeCall, takeMacro} from "./macros.js";
import {MOST, Reader} from "./reader.js";
import {Num, Refused} from "./tree.js";

/** @typedef {import("./lexer.js").Token} Token */
/** @typedef {import("./macros.js").Macro} Macro */

/** Reads a file for .INSRT: its name and its text; nothing if there is none. `beside` is the name of the file that asks, "" for the text itself.
 * @typedef {(name: string, beside: string) => {name: string, text: string} | null} Insert */

/** Tests of a number.
 * @type {Record<string, (value: number) => boolean>} */
const TESTS = {IFE: value => value === 0, IFN: value => value !== 0, IFG: value => value > 0, IFL: value => value < 0,
               IFGE: value => value >= 0, IFLE: value => value <= 0};

/** Gives the tokens of a text whose macros, repeats, inserted files and conditions are obeyed. */
export class Pieces extends Reader {
  /** @param {string} source
   * @param {Insert} [insert] */
  constructor(source, insert = () => null) {
    super(source);
    this.insert = insert;
    /** @type {Map<string, Macro>} */
    this.macros = new Map();
  }

  /** The value of the expression that is next, as a number with its sign. The parser knows it.
   * @param {Token} _token what asks for it
   * @returns {number} */
  evaluated(_token) { throw new Error("no parser"); }

  /** Whether a symbol is defined so far. The parser knows it.
   * @param {string} name */
  isDefined(name) { return this.macros.has(name) || isTaken(name) || name in GIVEN; }

  /** The next token, of the text or of what it asks for.
   * @returns {Token} */
  next() {
    for (let blank = false;;) {
      const token = this.token();
      blank = token.blank = token.blank || blank;
      const isDefinition = /^[ \t]*[:=]/.test(token.piece.text.slice(token.end, token.end + 80));
      if (token.kind !== "SYMBOL" || token.variable || isDefinition) return token;
      const macro = this.macros.get(token.name), repeat = [...this.pieces].reverse().find(piece => piece.times);
      if (token.name === ".RPCNT" && repeat) return {...token, kind: "NUMBER", value: new Num(repeat.count, false)};
      if (macro) this.expand(macro, token);
      else if (PIECES.has(token.name)) this.obey(token);
      else return token;
    }
  }

  /** The text of a macro is in the place of its call.
   * @param {Macro} macro
   * @param {Token} token */
  expand(macro, token) {
    const piece = this.piece, text = takeCall(piece, macro, token.at);
    this.remark(token, this.writtenSince(token));
    this.enter(new Piece(text, {file: piece.file, call: {piece: token.piece, start: token.start, end: piece.position}, at: token.at,
                                what: "the macro " + macro.name}), token);
  }

  /** Obeys a name that gives or takes a piece of text.
   * @param {Token} token */
  obey(token) {
    if (token.name === "DEFINE") this.define(token);
    else if (token.name === "REPEAT") this.repeat(token);
    else if (token.name === ".INSRT") this.insertFile(token);
    else if (token.name === ".ALSO" || token.name === ".ELSE") this.after(token);
    else this.condition(token);
  }

  /** A macro is defined.
   * @param {Token} token */
  define(token) {
    const macro = takeMacro(this.piece, token.at);
    if (isTaken(macro.name)) throw new Refused(token.at, macro.name + " is a name of MIDAS itself, which this would take away; use another one");
    if (this.isDefined(macro.name) && !this.macros.has(macro.name)) throw new Refused(token.at, macro.name + " is defined already");
    this.macros.set(macro.name, macro);
    this.remark(token, this.writtenSince(token).split("\n")[0].split(";")[0] + " ..");
  }

  /** The number of a condition or a repeat, up to the comma after it.
   * @param {Token} token */
  count(token) {
    const {ahead, last, atStart} = this;
    Object.assign(this, {ahead: [], atStart: false});
    const value = this.evaluated(token), comma = this.take();
    if (comma.kind !== "MARK" || comma.name !== ",") {
      throw new Refused(comma.at, "a comma is wanted here, after the number of " + token.name);
    }
    Object.assign(this, {ahead, last, atStart});
    return value;
  }

  /** A piece that is read several times.
   * @param {Token} token */
  repeat(token) {
    const times = this.count(token), said = this.writtenSince(token).replace(/,$/, ""), body = this.body(), text = this.piece.text;
    if (times < 0 || times > MOST) throw new Refused(token.at, "REPEAT has a count of 0 to " + MOST + ". here");
    if (!body.inBrackets) body.to = body.after = Math.min(body.to + 1, text.length);
    if (times > 1 && !/\n[ \t\f]*$/.test(text.slice(body.from, body.to)) && body.to < text.length) {
      throw new Refused(token.at, "what REPEAT gives has to end its line: put the ] on the next line");
    }
    this.remark(token, said + (times === 1 ? " (once)" : " (" + times + ". times)"));
    if (times) this.enterPart(token, body, {times});
    else this.piece.skipTo(body.after);
  }

  /** Another file is read.
   * @param {Token} token */
  insertFile(token) {
    const piece = this.piece, from = pastBlanks(piece.text, piece.position);
    const name = (/[^;\n]*/.exec(piece.text.slice(from)) || [""])[0].trimEnd();
    if (!name) throw new Refused(piece.place(from), "the name of a file is wanted after .INSRT");
    const at = piece.place(from), file = this.insert(name, piece.file);
    if (!file) throw new Refused(at, "the file " + name + " is not there: .INSRT takes a file by its name here, beside the text that asks for it");
    piece.skipTo(from + name.length);
    this.remark(token, this.writtenSince(token));
    this.enter(new Piece(plainText(file.text), {file: file.name, call: {piece: token.piece, start: token.start, end: piece.position}}), token);
  }

  // Conditions

  /** A condition, and what it is about.
   * @param {Token} token */
  condition(token) {
    const {name} = token;
    if (name === "IF1" || name === "IF2") {
      this.skipComma();
      return this.chosen(token, Number(name[2]), token.name);
    }
    const holds = TESTS[name] ? TESTS[name](this.count(token)) : this.compared(token);
    this.chosen(token, holds, this.writtenSince(token).replace(/,\s*$/, ""));
  }

  /** Whether a condition on texts holds.
   * @param {Token} token */
  compared(token) {
    const {name} = token, piece = this.piece;
    const wanted = name === "IFSE" || name === "IFSN" ? 2 : 1;
    const texts = Array.from({length: wanted}, () => {
      const argument = takeArgument(piece);
      if (!argument.comma) throw new Refused(piece.place(piece.position), "a comma is wanted here, after what " + name + " tests");
      return argument.text.trim();
    });
    if (name === "IFB" || name === "IFNB") return (texts[0] === "") === (name === "IFB");
    if (name === "IFSE" || name === "IFSN") return (texts[0].toUpperCase() === texts[1].toUpperCase()) === (name === "IFSE");
    return this.isDefined(significant(texts[0])) === (name === "IFDEF");
  }

  /** The other way of the last condition of this piece, or once more the same one.
   * @param {Token} token */
  after(token) {
    const piece = this.piece, {held} = piece;
    if (held === null) throw new Refused(token.at, token.name + ": no condition is above it");
    this.skipComma();
    const same = token.name === ".ALSO";
    this.chosen(token, typeof held === "number" ? same ? held : 3 - held : held === same, token.name);
    piece.held = held;
  }

  /** A comma that may be here. */
  skipComma() {
    const piece = this.piece, at = pastBlanks(piece.text, piece.position);
    if (piece.text[at] === ",") piece.skipTo(at + 1);
  }

  /** Reads what a condition is about, or leaves it out.
   * @param {Token} token
   * @param {boolean | number} held whether it holds, or the pass that it names
   * @param {string} said */
  chosen(token, held, said) {
    const piece = this.piece, body = this.body(), isPass = typeof held === "number";
    piece.held = held;
    this.remark(token, said + (isPass ? "" : held ? " holds" : " does not hold, and is left out"));
    if (held === false) return piece.skipTo(body.after);
    if (isPass && !body.inBrackets) {
      const comment = piece.text.slice(body.from, body.to).indexOf(";");
      if (comment >= 0) body.to = body.after = body.from + comment;
    }
    if (isPass || body.inBrackets) this.enterPart(token, body, {pass: isPass ? held : 0});
  }
}
