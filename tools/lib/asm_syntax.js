// Shared by the page and the commands: why a line of an assembly text is refused as SYNTAX, in words for a person, and what helps.

import {alike} from "./alike.js";
import {NoTerm, SYMBOL, Undefined, knownValue, termsOf, valueOf} from "./assembly.js";
import {badByte, cause, noName} from "./bytes.js";
import {OPCODES, STATEMENTS} from "./chart.js";
import {atLine} from "./session.js";
import {isOctal, octal} from "./words.js";

/** @typedef {import("./assembly.js").Reading} Reading */
/** @typedef {import("./assembly.js").Source} Source */
/** @typedef {import("./bytes.js").Cause} Cause */

/** @type {Record<string, string>} */
const FORMS = {JOB: "JOB u j c, as JOB U J - or JOB U J 0", LOC: "LOC e, as LOC 100", WORD: "WORD n or WORD l,,r, as WORD 5 or WORD 0,,X",
               SIXBIT: "SIXBIT name, as SIXBIT OPEN", GO: "GO e, as GO START"};

/** What other assemblers have, and what to write here.
 * @type {Record<string, string>} */
const FOREIGN = {
  BLOCK: "there is no BLOCK: LOC .+n leaves n words free, with their label before it, as BUF: LOC .+10",
  ASCIZ: 'there is no ASCIZ: write each word by WORD (docs/CALLS.md, "Words by hand")',
  ASCII: 'there is no ASCII: write each word by WORD (docs/CALLS.md, "Words by hand")',
  END: "END is no statement here: the text ends with GO, as GO START",
  TITLE: "there is no TITLE: the text begins with JOB, which names the job",
  EXP: "there is no EXP: write WORD n", XWD: "there is no XWD: write WORD l,,r", ".QUIT": "there is no .QUIT: .BREAK 16, stops the job",
  HALT: "there is no HALT: .BREAK 16, stops the job", ".VALUE": "there is no .VALUE: .BREAK 16, stops the job",
  DEFINE: "there are no macros", RADIX: "there is no RADIX: all numbers are octal",
  ".LOGOUT": "there is no .LOGOUT: .CALL a block with the name LOGOUT", NOP: "there is no NOP: write JFCL",
  HLT: "there is no HLT: .BREAK 16, stops the job"};

const LITERAL = "a literal holds a number or two halves, as [5] or [1,,2], ";

/** Whether a word is an instruction or a statement.
 * @param {string} word */
function isOperation(word) { return OPCODES.has(word) || STATEMENTS.includes(word); }

/** Why a term is none.
 * @param {string} term
 * @param {number} column */
function wrongTerm(term, column) {
  if (!term) return cause("a term is missing here: an expression is numbers and symbols with + or - between them", column);
  const odd = /[*/&|<>^%]/.exec(term);
  if (odd) return cause("'" + odd[0] + "' is no operator here: an expression has + and - alone", column + odd.index);
  if ("\"'".includes(term[0])) {
    const code = term.length > 1 ? "; the character " + term[1] + " is " + octal(term.charCodeAt(1)) : "";
    return cause("a character constant: a number is written in octal" + code, column);
  }
  if (/^[0-9]+[.]$/.test(term)) {
    return cause("a decimal number: numbers are octal, and " + term + " is " + inOctal(term.slice(0, -1)) + " in octal", column);
  }
  return /^[0-9]/.test(term) ? wrongNumber(term, column) : wrongSymbol(term, column);
}

/** A decimal number in octal.
 * @param {string} decimal */
function inOctal(decimal) { return BigInt(decimal).toString(8); }

/** Why a term that begins with a digit is no number.
 * @param {string} term
 * @param {number} column */
function wrongNumber(term, column) {
  for (let at = 0; at < term.length; at += 1) {
    if ("89".includes(term[at])) {
      const more = /^[0-9]+$/.test(term) ? "; " + term + " in decimal is " + inOctal(term) + " in octal" : "";
      return cause("the digit " + term[at] + ": numbers are octal, and have the digits 0 to 7" + more, column + at);
    }
    if (!isOctal(term[at])) {
      return cause("'" + term + "' is neither a number nor a symbol: a number has the digits 0 to 7, and a symbol begins with a letter",
                   column + at);
    }
  }
  return cause("a number of " + term.length + " digits: in an address it may have 6; a word of 12 digits is written by WORD", column + 6);
}

/** Why a term or a label is no symbol.
 * @param {string} term
 * @param {number} column */
function wrongSymbol(term, column) {
  for (let at = 0; at < term.length; at += 1) {
    const one = term[at];
    if (one >= "a" && one <= "z") return cause("lower case: write " + term.toUpperCase(), column + at);
    if (!/[A-Z0-9.]/.test(one)) return cause("a symbol has only letters, digits and '.', not '" + one + "'", column + at);
  }
  if (term.length > 6) return cause("a symbol of " + term.length + " characters: it may have 6, as " + term.slice(0, 6), column + 6);
  if (!term || term[0] === ".") return cause("'" + term + "' is no symbol: a symbol begins with a letter", column);
  return cause("'" + term + "' is no term of an expression", column);
}

/** The first term of an expression that is none.
 * @param {string} text
 * @param {number} column
 * @returns {Cause | null} */
function wrongExpression(text, column) {
  for (const [sign, term, at] of termsOf(text)) {
    if (!sign && !term && "-+".includes(text[0])) {
      return cause("an expression begins with a term, not a sign: " + (text[0] === "-" ? "write 0-" + text.slice(1) : "leave the + out"), column);
    }
    try {
      valueOf(term, new Map(), 0);
    } catch (problem) {
      if (problem instanceof NoTerm) return wrongTerm(term, column + at);
      if (!(problem instanceof Undefined)) throw problem;
    }
  }
  return null;
}

/** Why `n` or `l,,r` is none.
 * @param {string} text
 * @param {number} column
 * @returns {Cause | null} */
function wrongWord(text, column) {
  const comma = text.indexOf(",,");
  if (comma >= 0) return wrongExpression(text.slice(0, comma), column) || wrongExpression(text.slice(comma + 2), column + comma + 2);
  if (text.includes(",")) return cause("one comma: two halves have two commas between them, as 1,,2", column + text.indexOf(","));
  if (text.startsWith("-")) {
    const value = isOctal(text.slice(1)) ? ((2n ** 36n - BigInt("0o" + text.slice(1)) % 2n ** 36n) % 2n ** 36n).toString(8) : "";
    return cause("a negative number: a word has no sign" + (value && "; write it as " + value), column);
  }
  if (isOctal(text)) return text.length > 12 ? cause("a number of " + text.length + " digits: a word has 12", column + 12) : null;
  const isExpression = knownValue(new Map(), text, 0) !== null || /^[A-Z0-9.+-]+$/.test(text) && !wrongExpression(text, column);
  if (isExpression) return cause("a whole word is digits alone: an expression is half a word, as 0,," + text, column);
  return wrongExpression(text, column) || cause("'" + text + "' is no word: it is 1 to 12 octal digits, or two halves as 1,,2", column);
}

/** Why a literal, which begins with its bracket, is none.
 * @param {string} text
 * @param {number} column */
function wrongLiteral(text, column) {
  if (!text.endsWith("]")) return cause("the literal is not closed: its ] ends the operand, and it contains no blank", column);
  const inside = text.slice(1, -1);
  if (/^(ASC|SIXBIT)/.test(inside) || OPCODES.has(inside.split(" ")[0])) return cause(LITERAL + "and no instruction or text", column + 1);
  return wrongWord(inside, column + 1);
}

/** Why an address is none.
 * @param {string} whole
 * @param {number} first
 * @returns {Cause | null} */
function wrongAddress(whole, first) {
  const [text, column] = whole.startsWith("@") ? [whole.slice(1), first + 1] : [whole, first];
  if (/^[#=]/.test(text)) {
    return cause("'" + text[0] + "' is no sign of an address: a literal is written [5], and an address alone is 5", column);
  }
  const bracket = text.indexOf("("), place = bracket < 0 ? text : text.slice(0, bracket);
  if (bracket >= 0) {
    const index = text.slice(bracket + 1);
    if (!index.endsWith(")")) return cause("the index register is not closed: its ) ends the operand", column + bracket);
    const found = wrongExpression(index.slice(0, -1), column + bracket + 1);
    if (found) return found;
  } else if (text.endsWith(")")) return cause("a ) without its (", column + text.length - 1);
  if (!place) return null;
  return place[0] === "[" ? wrongLiteral(place, column) : wrongExpression(place, column);
}

/** Why what follows a mnemonic is no operand.
 * @param {string} text
 * @param {number} column */
function wrongOperand(text, column) {
  const comma = /[,[]/.exec(text);
  if (!comma || comma[0] === "[") return wrongAddress(text, column);
  const accumulator = text.slice(0, comma.index), address = text.slice(comma.index + 1), after = column + comma.index + 1;
  if (!accumulator) return cause("there is no accumulator before the comma: write 0," + address + " or " + address, column);
  if (address.includes(",") && !address.includes("[")) {
    return cause("two commas: an operand is a,y with one accumulator and one address", after + address.indexOf(","));
  }
  return wrongExpression(accumulator, column) || wrongAddress(address, after);
}

/** A word that begins no statement.
 * @param {Source} line */
function unknown(line) {
  const word = line.body[0], column = line.places[0], upper = word.toUpperCase();
  if (word !== upper && isOperation(upper)) return cause("lower case: write " + line.body.join(" ").toUpperCase(), column);
  if (FOREIGN[upper]) return cause(FOREIGN[upper], column);
  if (/^-?[0-9]+[.]?$/.test(word) || word.includes(",,")) return cause("a word without WORD: write WORD " + word, column);
  if (";*#/".includes(word[0])) return cause("no statement begins with " + word[0] + "; a comment begins with ;", column);
  if (/[[,]/.test(word)) {
    return cause("'" + word + "' is no statement: an instruction has its mnemonic first, and a blank after it", column);
  }
  const near = alike(upper, [...[...OPCODES.keys()].sort(), ...STATEMENTS], 3), last = near[near.length - 1];
  const isIt = near.length > 1 ? near.slice(0, -1).join(", ") + " or " + last : last;
  return cause("no instruction and no statement is called " + word + (isIt ? "; is it " + isIt + "?" : ""), column);
}

/** A word with a colon that is no label, or a colon alone.
 * @param {Source} line */
function wrongLabel(line) {
  const [word, second] = line.body, column = line.places[0];
  if (second === ":") return cause("a blank before the colon: the colon follows its symbol directly, as " + word + ":", line.places[1]);
  if (word.endsWith(":")) return wrongSymbol(word.slice(0, -1), column);
  if (!word.includes(":") || word.includes("[")) return null;
  const colon = word.indexOf(":"), name = word.slice(0, colon);
  if (!SYMBOL.test(name)) return wrongSymbol(name, column);
  return cause("a blank is missing after the colon: write " + name + ": " + word.slice(colon + 1), column + colon);
}

/** A statement with `=` that is no `NAME = e`.
 * @param {Source} line */
function wrongEquals(line) {
  const {body, places} = line, at = body.findIndex(word => word.includes("="));
  if (at < 0 || at > 2 || body[0].includes("[")) return null;
  const [, name, sign, value] = /** @type {RegExpExecArray} */ (/^([^=:]*)([=:]*)(.*)$/.exec(body.join("")));
  const first = places[at] + body[at].indexOf("=");
  if (sign !== "=") return cause("a symbol is defined by one =, as " + name + " = " + (value || "5"), first);
  if (!name || !value) return cause("'=' has a symbol before it and an expression after it, as X = 5", first);
  if (!SYMBOL.test(name)) return wrongSymbol(name, places[0]);
  if (body.length !== 3 || body[1] !== "=") {
    return cause("a blank belongs on both sides of =, and nowhere else: write " + name + " = " + value, first);
  }
  if (value.includes(",,") || /^[0-9]{7,}$/.test(value)) return cause("the value of a symbol is a half word, at most 777777", places[2]);
  return wrongExpression(value, places[2]);
}

/** A JOB statement that is none.
 * @param {string[]} words
 * @param {number[]} columns */
function wrongJob(words, columns) {
  if (words.length !== 4) return cause("JOB has three words after it: it is written " + FORMS.JOB, columns[columns.length - 1]);
  const found = noName(words[1], columns[1]) || noName(words[2], columns[2]);
  if (found) return found;
  return words[3] === "-" || isOctal(words[3]) && parseInt(words[3], 8) <= 7 ? null :
    cause("the console is 0 to 7, or - for none", columns[3]);
}

/** A statement at a place where it is not allowed.
 * @param {Reading} reading
 * @param {Source} line */
function wrongPlace(reading, line) {
  const others = reading.lines.slice(0, line.number - 1).filter(other => other.words.length);
  if (!others.length) {
    if (line.words[0].toUpperCase() !== "JOB") {
      return cause("the first statement has to be JOB, which names the job: " + FORMS.JOB, line.columns[0]);
    }
    return line.words[0] === "JOB" ? wrongJob(line.words, line.columns) : cause("lower case: write JOB", line.columns[0]);
  }
  const ended = others.find(other => other.body[0] === "GO");
  if (ended) {
    return cause("GO ended the text in " + atLine(ended.number) + ", and only comments may follow it: let GO be the last statement",
                 line.columns[0]);
  }
  return line.body[0] === "JOB" ? cause("a second JOB: a text makes one job", line.places[0]) : null;
}

/** Too many words: a blank in an operand.
 * @param {Source} line */
function blankInside({body, places}) {
  if (body.length < 3 || !isOperation(body[0])) return null;
  if (body[0] === "SIXBIT") return cause("a name is one word, without blanks", places[2]);
  const bracket = body[1].indexOf("[");
  if (bracket >= 0 && bracket === body[1].length - 1 || /\[[A-Z]+$/.test(body[1])) {
    return cause(LITERAL + "without blanks; no instruction and no text", places[1] + bracket);
  }
  if (/^[/*!a-z]/.test(body[2])) return cause("a comment begins with ;", places[2]);
  return cause("a blank in the operand: write " + body[0] + " " + body.slice(1).join(""), places[2] - 1);
}

/** A statement with its first word known, whose text is none.
 * @param {Source} line */
function wrongStatement({body, places}) {
  const [first, text] = body, [column, place] = places;
  if (text === undefined) return FORMS[first] ? cause("an operand is missing: it is written " + FORMS[first], column + first.length) : null;
  if (first === "LOC" || first === "GO") {
    if (text.includes(",,") || isOctal(text) && text.length > 6) return cause("an address has at most 6 digits", place);
    return wrongExpression(text, place);
  }
  if (first === "WORD") return wrongWord(text, place);
  if (first !== "SIXBIT") return wrongOperand(text, place);
  if (/^\/.*\/$/.test(text) && text.length > 1) {
    return cause("the name has no / around it: write SIXBIT " + text.replace(/^\/+|\/+$/g, ""), place);
  }
  return noName(text, place);
}

/** The cause of SYNTAX.
 * @param {Reading} reading
 * @param {Source} line
 * @returns {Cause} */
export function syntaxCauseOf(reading, line) {
  let found = badByte(line.text) || (line.words.length ? wrongPlace(reading, line) : null);
  if (!found && line.body.length) {
    found = wrongLabel(line) || wrongEquals(line);
    if (!found) found = isOperation(line.body[0]) ? blankInside(line) || wrongStatement(line) : unknown(line);
  }
  return found || cause("no statement of docs/ASM.md has this form");
}
