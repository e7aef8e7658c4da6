// Shared by the page and the commands: why a line of an assembly text is refused, in words for a person, and what helps. The program says
// that it is refused, and with which reason (docs/ASM.md, "Refusals"); the cause is looked for in the text, and never for a verdict.

import {alike} from "./alike.js";
import {syntaxCauseOf} from "./asm_syntax.js";
import {ADDRESSES, SYMBOL, knownValue, termsOf} from "./assembly.js";
import {cause} from "./bytes.js";
import {OPCODES} from "./chart.js";
import {atLine} from "./session.js";
import {octal} from "./words.js";

/** @typedef {import("./assembly.js").Reading} Reading */
/** @typedef {import("./assembly.js").Source} Source */
/** @typedef {import("./bytes.js").Cause} Cause */

/** The expressions of a statement: text, column and what it is: an accumulator, an index register or a value.
 * @param {Source} line
 * @returns {[string, number, string][]} */
function expressionsOf(line) {
  const {body, places} = line;
  if (line.isEquals) return [[body[2], places[2], "value"]];
  if (body.length < 2) return [];
  /** @type {[string, number, string][]} */
  const out = [];
  let [text, column] = [body[1], places[1]];
  const skip = (/** @type {number} */ count) => { [text, column] = [text.slice(count), column + count]; };
  if (OPCODES.has(body[0])) {
    const comma = /[,[]/.exec(text);
    if (comma && comma[0] === ",") {
      out.push([text.slice(0, comma.index), column, "accumulator"]);
      skip(comma.index + 1);
    }
    if (text.startsWith("@")) skip(1);
    const bracket = text.indexOf("(");
    if (bracket >= 0) {
      out.push([text.slice(bracket + 1, -1), column + bracket + 1, "index register"]);
      text = text.slice(0, bracket);
    }
  }
  if (text.startsWith("[")) [text, column] = [text.slice(1, -1), column + 1];
  const comma = text.indexOf(",,");
  if (comma >= 0) return [...out, [text.slice(0, comma), column, "value"], [text.slice(comma + 2), column + comma + 2, "value"]];
  return text ? [...out, [text, column, "value"]] : out;
}

/** The cause of RANGE.
 * @param {Reading} reading
 * @param {Source} line */
function rangeCause(reading, line) {
  for (const [text, column, what] of expressionsOf(line)) {
    const value = knownValue(reading.symbols, text, line.location);
    if (what !== "value" && value !== null && value > 0o17) {
      return cause("an " + what + " is 0 to 17 in octal, and this is " + octal(value), column);
    }
  }
  if (line.body[0] === "GO") {
    return cause("the " + reading.literals.length + " literals begin at " + octal(reading.base) +
                 ", after the last word, and go past the last address, 777777", line.places[0]);
  }
  return cause("the location is " + octal(line.location) + " here, past the last address, 777777: a LOC above has to leave room",
               line.columns[0]);
}

/** What is said of a symbol that no line defines.
 * @param {Reading} reading
 * @param {string} name */
function notDefined(reading, name) {
  const [near] = alike(name, reading.symbols.keys());
  return "the symbol " + name + " is not defined" + (near ? "; is it " + near + ", of " + atLine(reading.defined.get(near) || 0) + "?" :
    "; a label " + name + ": or " + name + " = e defines it");
}

/** The symbol of a line that has no value, or none yet: its name, its column, and the line that defines it later, if one does.
 * @param {Reading} reading
 * @param {Source} line
 * @returns {{name: string, column: number, later: number | undefined} | null} */
export function undefinedIn(reading, line) {
  const isStrict = line.isEquals || line.body[0] === "LOC";
  for (const [text, column] of expressionsOf(line)) {
    for (const [, name, at] of termsOf(text)) {
      const later = reading.defined.get(name);
      if (SYMBOL.test(name) && (later === undefined || isStrict && later >= line.number)) return {name, column: column + at, later};
    }
  }
  return null;
}

/** The cause of UNDEF.
 * @param {Reading} reading
 * @param {Source} line */
function undefinedCause(reading, line) {
  const found = undefinedIn(reading, line);
  if (!found) return cause("a symbol is not defined");
  const {name, column, later} = found;
  return cause(later === undefined ? notDefined(reading, name) : name + " is defined in " + atLine(later) + ", and " +
               (line.isEquals ? "=" : "LOC") + " asks for symbols that an earlier line defines", column);
}

/** GO: a literal gets a location that has a word.
 * @param {Reading} reading
 * @param {Source} line */
function literalMeets(reading, line) {
  for (const [at, literal] of reading.literals.entries()) {
    const address = reading.base + at, given = reading.given.get(address);
    if (given !== undefined) {
      return cause("the literal [" + literal.text + "] of " + atLine(literal.line) + " goes to " + octal(address) +
                   ", since literals begin at " + octal(reading.base) + ", the location at GO; and " + atLine(given) +
                   " has put a word there: before GO, set LOC past all words", line.places[0]);
    }
  }
  return cause("a literal gets a location that has a word already", line.places[0]);
}

/** The cause of TWICE.
 * @param {Reading} reading
 * @param {Source} line */
function twiceCause(reading, line) {
  const names = [...line.labels, ...(line.isEquals ? [line.body[0]] : [])];
  const columns = [...line.columns.slice(0, line.labels.length), ...line.places.slice(0, 1)];
  for (const [at, name] of names.entries()) {
    const first = reading.defined.get(name) || line.number;
    if (first < line.number || names.slice(0, at).includes(name)) {
      return cause("the symbol " + name + " is defined in " + atLine(first) + " already, and may be defined once", columns[at]);
    }
  }
  if (line.body[0] === "GO") return literalMeets(reading, line);
  const first = reading.given.get(line.location) || line.number;
  const before = reading.lines.slice(0, line.number - 1).filter(other => other.body[0] === "LOC").pop();
  const back = before && before.number > first ? "; LOC in " + atLine(before.number) + " came back to it" : "";
  return cause("the location " + octal(line.location) + " has a word already, of " + atLine(first) + back, line.places[0]);
}

/** The cause of CUT.
 * @param {Reading} reading */
function cutCause(reading) {
  if (!reading.lines.some(line => line.words.length)) return cause("the text has no statement: it begins with JOB and ends with GO");
  return cause("the text ends without GO: let its last statement say where the job starts, as GO START");
}

/** The causes by their reasons.
 * @type {Record<string, (reading: Reading, line: Source) => Cause>} */
const REASONS = {
  SYNTAX: syntaxCauseOf, RANGE: rangeCause, UNDEF: undefinedCause, TWICE: twiceCause,
  FULL: (_, line) => cause("this is symbol 513, and a text may define 512", line.columns[0]),
  LONG: (_, line) => cause("the line has " + line.text.length + " bytes, and may have 255: begin another line", 256)
};

/** The cause of a refusal, of the line with this number.
 * @param {Reading} reading
 * @param {number} number
 * @param {string} reason
 * @returns {Cause} */
export function asmCause(reading, number, reason) {
  if (reason === "CUT" || number > reading.lines.length) return cutCause(reading);
  const found = REASONS[reason];
  return found ? found(reading, reading.lines[number - 1]) : cause('docs/ASM.md, "Refusals", has the reasons');
}

/** What a text that is not refused will do that its writer may not expect: labels that name words of literals, and names in slashes.
 * @param {Reading} reading */
export function warningsOf(reading) {
  const out = reading.lines.filter(({body}) => body[0] === "SIXBIT" && /^\/.+\/$/.test(body.slice(1).join(" "))).map(({number, body}) =>
    atLine(number) + ": the slashes belong to the name here; write SIXBIT " + body[1].replace(/^\/+|\/+$/g, ""));
  const last = reading.base + reading.literals.length;
  for (const [name, value] of reading.symbols) {
    const line = reading.defined.get(name) || 0, isLabel = reading.lines[line - 1].labels.includes(name);
    if (isLabel && reading.literals.length && reading.base <= value && value < last && !reading.given.has(value)) {
      out.push("the literals are at " + octal(reading.base) + " to " + octal((last - 1) % ADDRESSES) + ", and " + name + " (" + atLine(line) +
               ") is " + octal(value) + ": if it names a buffer, a store there changes a literal. Leave room before GO, as " + name +
               ": LOC .+10");
    }
  }
  return out;
}
