// Shared by the page and the commands: the words and the expressions of a MIDAS text, made of its tokens.

import {textOf} from "./characters.js";
import {INSTRUCTIONS, REFUSED, STATEMENTS, GIVEN, whyUnknown} from "./known.js";
import {Pieces} from "./pieces.js";
import {HALF, Here, Literal, Minus, Name, Num, Operation, Refused, Swapped, Text, Two, Word} from "./tree.js";

/** @typedef {import("./lexer.js").Token} Token */
/** @typedef {import("./tree.js").Item} Item */
/** @typedef {import("./tree.js").Node} Node */
/** @typedef {import("./tree.js").Place} Place */

const LOGICAL = ["&", "#", "\\"];
const SIGNS = ["+", "-", "*", "/", "_", ...LOGICAL];
/** @type {Record<string, string>} */
const CLOSING = {"(": ")", "<": ">", "[": "]"};

/** A sign between two operands, and its place.
 * @typedef {{name: string, at: Place}} Sign */

/** Reads words and expressions. */
export class Expressions extends Pieces {
  /** @param {string} source
   * @param {import("./pieces.js").Insert} [insert] */
  constructor(source, insert) {
    super(source, insert);
    /** @type {Set<string>} */
    this.operations = new Set();         // symbols that are words with a left half, as CALL=PUSHJ P,
  }

  /** Whether the text has defined a name so far.
   * @param {string} _name
   * @returns {boolean} */
  hasDefined(_name) { return false; }

  // Words

  /** An instruction, or data. */
  word() {
    const token = this.peek();
    if (token.kind === "SYMBOL") {
      const why = REFUSED.get(token.name), value = INSTRUCTIONS.get(token.name);
      if (why) throw new Refused(token.at, token.name + ": " + why);
      if (token.name === ".LOGOU") return this.logout(this.take());
      if (value !== undefined) {
        this.take();
        return this.operands(operationOf(token.name), token.at);
      }
      if (this.operations.has(token.name) && this.isOperation()) {
        this.take();
        return this.operands(new Name(token.name, token.at), token.at);
      }
    }
    return this.data();
  }

  /** Whether a symbol with a left half begins an instruction here, and no sum as CALL+1. */
  isOperation() {
    const after = this.peek(1);
    if (after.kind !== "MARK" || "(<[@)>]".includes(after.name)) return true;
    return after.name === "-" && after.blank && !this.peek(2).blank;
  }

  /** What follows the name of an instruction.
   * @param {Operation | Name} operation
   * @param {Place} at */
  operands(operation, at) {
    let accumulator = null, [indirect, address] = this.address();
    if (this.isMark([","])) {
      if (indirect) throw new Refused(at, "an accumulator has no @ before it");
      this.take();
      accumulator = address;
      [indirect, address] = this.address();
    }
    if (!this.isOver()) {
      throw new Refused(this.peek().at, this.shown(this.peek()) + " is left over after the instruction " + operation.name);
    }
    if (operation.name === ".VALUE" && (accumulator || indirect || address && !(address instanceof Num && address.value === 0))) {
      throw new Refused(at, ".VALUE with an operand gives the superior a text, and nobody obeys it here; .VALUE alone, or .BREAK 16, stops the job");
    }
    return new Word({operation, accumulator, indirect, address, at});
  }

  /** The call that .LOGOUT of ITS is here.
   * @param {Token} token */
  logout(token) {
    const [indirect, address] = this.address();
    if (this.isMark([","]) && !indirect && address instanceof Num) this.take();
    else if (indirect || address) throw new Refused(token.at, ".LOGOUT is understood alone and as .LOGOUT 1,");
    if (!this.isOver()) throw new Refused(this.peek().at, this.shown(this.peek()) + " is left over after .LOGOUT");
    return logoutOf(token.at);
  }

  /** An address with its index register, and whether it is indirect; it may be left out.
   * @returns {[boolean, Node | null]} */
  address() {
    const indirect = this.isMark(["@"]);
    if (indirect) this.take();
    return [indirect, this.isOver() || this.isMark([",", ",,"]) ? null : this.sum()];
  }

  /** A word that is no instruction: an expression, or two halves.
   * @returns {Word | Text} */
  data() {
    const first = this.peek();
    let left = null, [indirect, address] = this.address();
    if (this.isMark([",,"])) {
      if (indirect) throw new Refused(first.at, "@ belongs to the right half");
      this.take();
      left = address || new Num(0);
      [indirect, address] = this.address();
    }
    if (!this.isOver()) throw this.leftOver(first);
    if (address instanceof Text && left === null && !indirect) return address;
    return new Word({left, indirect, address, at: first.at});
  }

  /** The refusal of what follows a word that is no instruction.
   * @param {Token} first */
  leftOver(first) {
    const after = this.peek();
    if (first.kind === "SYMBOL" && !this.hasDefined(first.name) && !(first.name in GIVEN)) {
      return new Refused(first.at, whyUnknown(first.name, this.operations));
    }
    return new Refused(after.at, this.shown(after) + " is left over: " + this.shown(first) + " is no instruction");
  }

  // Expressions

  /** An expression: operands with operators between them, and words in parentheses added.
   * @returns {Node} */
  sum() {
    const nodes = [this.shifted()];
    /** @type {Sign[]} */
    const signs = [];
    while (this.isMark(["(", ...SIGNS])) {
      if (this.isMark(["("])) {
        signs.push({name: "+", at: this.peek().at});
        nodes.push(this.primary());
      } else {
        signs.push(this.take());
        nodes.push(this.shifted());
      }
    }
    if (signs.some(sign => LOGICAL.includes(sign.name))) {
      const other = signs.find(sign => sign.name !== signs[0].name);
      if (other) throw new Refused(other.at, signs[0].name + " and " + other.name + " are mixed: put < and > around what comes first");
      return folded(nodes, signs);
    }
    for (let at = 0; at < signs.length;) {
      if (!"*/".includes(signs[at].name)) at += 1;
      else {
        nodes.splice(at, 2, new Two(signs[at].name, nodes[at], nodes[at + 1], signs[at].at));
        signs.splice(at, 1);
      }
    }
    return folded(nodes, signs);
  }

  /** An operand, or operands with `_` between them, which is tried before all other operators. */
  shifted() {
    const first = this.peek();
    let node = this.signed();
    while (this.isMark(["_"])) {
      if (node instanceof Minus && first.kind === "MARK" && "+-".includes(first.name)) {
        throw new Refused(first.at, "put < and > around the number before _ and its sign");
      }
      const sign = this.take();
      node = new Two("_", node, this.signed(), sign.at);
    }
    return node;
  }

  /** An operand with its signs.
   * @returns {Node} */
  signed() {
    if (this.isMark(["+"])) {
      this.take();
      return this.signed();
    }
    if (this.isMark(["-"])) {
      this.take();
      return new Minus(this.signed());
    }
    return this.primary();
  }

  /** A number, a symbol, the location, a text of one word, or something in brackets.
   * @returns {Node} */
  primary() {
    const token = this.take();
    if (token.value) return token.value;
    if (token.text) return token.text;
    if (token.kind === "SYMBOL") return this.named(token);
    if (token.kind === "MARK" && "(<".includes(token.name)) {
      const inside = this.inside(token, CLOSING[token.name]);
      return token.name === "(" ? new Swapped(inside) : inside;
    }
    if (token.kind === "MARK" && token.name === "[") return this.literal(token);
    const what = token.kind === "LINE" || token.kind === "END" ? "the end" : this.shown(token);
    throw new Refused(token.at, "a number, a symbol or a bracket is wanted here, and not " + what);
  }

  /** The value of a name.
   * @param {Token} token */
  named(token) {
    if (token.name === ".") return new Here();
    const value = INSTRUCTIONS.get(token.name);
    if (token.name === ".LOGOU") return logoutOf(token.at);
    if (value !== undefined) return new Word({operation: operationOf(token.name), at: token.at});
    if (STATEMENTS.includes(token.name) || REFUSED.has(token.name)) {
      throw new Refused(token.at, this.shown(token) + " has no place in an expression");
    }
    return new Name(token.name, token.at);
  }

  /** A word in brackets.
   * @param {Token} opening
   * @param {string} closing
   * @returns {Node} */
  inside(opening, closing) {
    if (this.isMark([closing])) throw new Refused(this.peek().at, "nothing is between " + opening.name + " and " + closing);
    const word = this.word();
    if (!this.isMark([closing])) throw new Refused(opening.at, opening.name + " has no " + closing + " on its line");
    this.take();
    return word instanceof Word && word.isPlain && word.address !== null ? word.address : word;
  }

  // Literals

  /** A literal: words, with `?` or ends of lines between them.
   * @param {Token} opening */
  literal(opening) {
    /** @type {Item[]} */
    const items = [];
    let begun = 0;                       // the first item of the line, which gets its comment
    while (!this.isMark(["]"])) {
      const token = this.peek();
      if (token.kind === "END") throw new Refused(opening.at, "this [ has no ] after it");
      if (token.kind !== "LINE" && token.kind !== "BREAK") {
        items.push(this.item());
        continue;
      }
      this.take();
      if (token.kind !== "LINE") continue;
      if (token.name && begun < items.length) items[begun] = {...items[begun], comment: token.name};
      begun = items.length;
    }
    this.take();
    if (!items.length) throw new Refused(opening.at, "a literal without words");
    return new Literal(items);
  }

  /** One statement of a literal.
   * @returns {Item} */
  item() {
    const first = this.peek();
    if (first.kind === "SYMBOL" && this.isMark([":", "="], 1)) throw new Refused(first.at, "no symbol can be defined in a literal");
    if (first.kind === "REST" || first.kind === "SYMBOL" && STATEMENTS.includes(first.name)) {
      throw new Refused(first.at, this.shown(first) + " has no place in a literal");
    }
    const content = this.word(), after = this.peek();
    if (!(["LINE", "BREAK", "END"].includes(after.kind) || this.isMark(["]"]))) {
      throw new Refused(after.at, this.shown(after) + " is left over after the word");
    }
    return {content, comment: "", source: this.between(first, this.last || first)};
  }
}

/** An instruction's name as a word knows it.
 * @param {string} name */
function operationOf(name) { return new Operation(name, INSTRUCTIONS.get(name) || 0); }

/** The call of LOGOUT, with its block as a literal: a control word that no call looks at ends it.
 * @param {Place} at */
function logoutOf(at) {
  const block = [new Word({operation: operationOf("SETZ"), at}), textOf("SIXBIT", "LOGOUT", at), new Word({left: new Num(0o405000), at})];
  const items = block.map(content => ({content, comment: "", source: ""}));
  return new Word({operation: operationOf(".CALL"), address: new Literal(items), at});
}

/** Operands of one rank, from the left.
 * @param {Node[]} nodes
 * @param {Sign[]} signs
 * @returns {Node} */
function folded(nodes, signs) {
  return signs.reduce((node, sign, at) => new Two(sign.name, node, nodes[at + 1], sign.at), nodes[0]);
}

/** Whether a symbol with this value begins instructions: an instruction itself, halves, or a number with a left half.
 * @param {Word | Text} content
 * @returns {boolean} */
export function hasOperation(content) {
  if (content instanceof Text) return false;
  if (content.operation !== null || content.left !== null) return true;
  const {address} = content;
  return address instanceof Word && hasOperation(address) || address instanceof Num && address.value > HALF;
}
