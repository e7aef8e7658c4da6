// Shared by the page and the commands: why a line of a session is refused, in words for a person. The program only says that it is refused,
// and the reason; the cause is looked for in the text of the line and in the lines before it, and never for a verdict.

import {isItOf} from "./alike.js";
import {badByte, cause, noName} from "./bytes.js";
import {CLOSES, JOB_LINES, LINES, STATE_LINES, atLine, isInState} from "./session.js";
import {STATE_FORMS, STATE_WRITTEN, noTag, stateCause, stateRanges} from "./state_causes.js";
import {isOctal, number, octal} from "./words.js";

/** @typedef {import("./session.js").Line} Line */
/** @typedef {import("./transcript.js").Exchange} Exchange */
/** @typedef {import("./readings.js").Known} Known */
/** @typedef {import("./bytes.js").Cause} Cause */

/** What follows the first word of each line outside the state part: n a number, name a name, con a console or `-`.
 * @type {Record<string, string>} */
const FORMS = {
  VERSION: "n", LOAD: "name name con", RO: "n", SYM: "name n", GO: "n", FILE: "name name name", EOF: "", TICK: "n n", RUN: "n n",
  TYPE: "n n", DRAIN: "n n", CLOCK: "n", INT: "n n n", EXAM: "n n n", LIST: "n n n", STATE: "n", DEPOSIT: "n n n", STOP: "n", CONT: "n",
  PEEK: "n", DIR: "name", SHOW: "name name name", END: ""};

/** How each line is written.
 * @type {Record<string, string>} */
export const WRITTEN = {
  VERSION: "VERSION v", LOAD: "LOAD u j c", RO: "RO p", SYM: "SYM name a", GO: "GO a", FILE: "FILE d x y", EOF: "EOF", TICK: "TICK s n",
  RUN: "RUN n q", TYPE: "TYPE c and 1 to 32 bytes", DRAIN: "DRAIN c n", CLOCK: "CLOCK n", INT: "INT s v w", EXAM: "EXAM s a n",
  LIST: "LIST s a n", STATE: "STATE s", DEPOSIT: "DEPOSIT s a w", STOP: "STOP s", CONT: "CONT s", PEEK: "PEEK s", DIR: "DIR d",
  SHOW: "SHOW d x y", END: "END", "a/": "a/ and 1 to 16 words", "/": "/ and 1 to 16 words", ...STATE_WRITTEN};

/** A number with a range of its own: which word of the line, least, most, and what it is.
 * @typedef {[number, number, number, string]} Range */
/** @type {Range} */
const ADDRESS = [2, 0, 0o777777, "an address"];
/** @type {Range[]} */
const SPAN = [ADDRESS, [3, 1, 0o10, "the count of words"]];
/** @type {Record<string, Range[]>} */
const RANGES = {
  VERSION: [[1, 1, 2, "the version"]], SYSTEM: [[1, 1, 2, "the version"]], RO: [[1, 0, 0o377, "a page"]], SYM: [ADDRESS], GO: [[1, 0, 0o777777, "an address"]],
  TICK: [[2, 1, 0o1000, "the count of ticks"]],
  RUN: [[1, 1, 0o1000, "the count of turns"], [2, 1, 0o100, "the count of ticks of a turn"]],
  DRAIN: [[2, 1, 0o100, "the count of bytes"]], EXAM: SPAN, LIST: SPAN, DEPOSIT: [ADDRESS]};

/** @type {Record<string, string>} */
const FULL = {SYM: "the job has 512 symbols, the most that it can have", FILE: "there are 256 files, the most that there can be",
              "a/": "1024 pages are mapped, the most that there can be", "/": "all 2048 blocks of files are in use"};

/** The columns at which the words of a line begin.
 * @param {Line} line */
export function starts(line) {
  let at = 0;
  return line.words.map(word => {
    const found = line.text.indexOf(word, at);
    at = found + word.length;
    return found + 1;
  });
}

/** For each line with any number of words: the first of them, and how many it may have.
 * @type {Record<string, [number, number]>} */
const MANY = {"a/": [1, 16], "/": [1, 16], TYPE: [2, 32], WROTE: [3, 16], SENT: [2, 16], IN: [2, 32], OUT: [2, 32]};

/** A line at a place at which it may not occur, as far as the state part is concerned.
 * @param {Line} line
 * @param {number} column */
function wrongForState(line, column) {
  if (line.kind === "SYSTEM" && line.number > 1) return cause("not allowed here: SYSTEM is allowed in line 1 alone", column);
  const isOwn = STATE_LINES.includes(line.kind) || line.kind in STATE_FORMS || line.kind === "a/" || line.kind === "/";
  if (line.block === "SYSTEM" && !isOwn) {
    return cause("not allowed here: the state part is open since " + atLine(line.since) + ", and up to its READY only its own lines are allowed", column);
  }
  return STATE_LINES.includes(line.kind) && !isInState(line) ?
    cause("not allowed here: " + line.kind + " lines are allowed only in the state part, after SYSTEM in line 1, up to its READY", column) : null;
}

/** A line at a place at which it may not occur.
 * @param {Line} line
 * @param {Known} known */
function wrongPlace(line, known) {
  /** @type {Record<string, string>} */
  const inside = {"a/": "LOAD", RO: "LOAD", SYM: "LOAD", GO: "LOAD", "/": "FILE", EOF: "FILE"};
  const [column] = starts(line);
  if (!LINES[line.kind] && !inside[line.kind]) return null;
  if (line.kind === "VERSION" && line.number > 1) return cause("not allowed here: VERSION is allowed in line 1 alone", column);
  const found = wrongForState(line, column);
  if (found || isInState(line)) return found;
  if (["RO", "SYM", "RUN", "LIST"].includes(line.kind) && line.version === 1) {
    return cause(line.kind + " lines are of version 2 of the session text: line 1 has to be " + (known.hasState ? "SYSTEM" : "VERSION") + " 2", column);
  }
  const wanted = inside[line.kind] || "";
  if (wanted === line.block) return null;
  if (line.block) {
    const loads = line.version === 2 ? "a/, RO and SYM lines" : "a/ lines";
    return cause("not allowed here: the block of " + line.block + " is open since " + atLine(line.since) + ", and up to its " +
                 CLOSES[line.block] + " only " + (line.block === "LOAD" ? loads : "/ lines") + " are allowed in it", column);
  }
  if (line.kind === CLOSES[wanted]) {
    return cause("not allowed here: " + line.kind + " closes the block of " + wanted + ", and none is open", column);
  }
  return cause("not allowed here: " + line.kind + " lines are allowed only after a " + wanted + " line, up to its " + CLOSES[wanted], column);
}

/** What belongs at each place of a line after its first word.
 * @param {Line} line */
export function formOf(line) { return ((isInState(line) ? STATE_FORMS : FORMS)[line.kind] || "").split(" ").filter(Boolean); }

/** A comment after a line.
 * @param {Line} line */
function remark(line) {
  const form = formOf(line);
  for (const [at, word] of line.words.entries()) {
    const nameFits = 0 < at && at <= form.length && ["name", "tag"].includes(form[at - 1]);
    if (word.includes(";") && !nameFits) {
      return cause("a comment after a line: a comment needs a line of its own", starts(line)[at] + word.indexOf(";"));
    }
  }
  return null;
}

/** A first word that begins no line.
 * @param {Line} line */
function unknown(line) {
  const first = line.words[0], upper = first.toUpperCase(), [column] = starts(line), second = line.words[1] || "";
  if (LINES[line.kind] || line.kind === "a/" || line.kind === "/") return null;
  if (LINES[upper]) return cause("lower case: write " + upper, column);
  if (first.includes("/") || second.startsWith("/")) {
    return cause("an address and its / are one word, with a space after it: 100/ 1", column);
  }
  if ("#*-/".includes(first[0])) return cause("no line begins with " + first + "; a comment begins with ;", column);
  if (/^\d/.test(first)) return cause("no line begins with " + first + "; words are loaded by a line as 100/ 1", column);
  return cause("no line begins with " + first + isItOf(upper, Object.keys(LINES)), column);
}

/** Why a word is no number.
 * @param {string} word
 * @param {number} column */
function noNumber(word, column) {
  for (let at = 0; at < word.length; at += 1) {
    const one = word[at];
    if ("89".includes(one)) return cause("the digit " + one + ": numbers are octal, and have the digits 0 to 7", column + at);
    if (!isOctal(one)) return cause("'" + word + "' is no number: numbers are 1 to 12 octal digits", column + at);
  }
  if (word.length > 12) return cause("a number of " + word.length + " digits: it may have 12", column + 12);
  return word ? null : cause("a number is wanted here", column);
}

/** Too few or too many words.
 * @param {Line} line */
function wrongCount(line) {
  const {words, kind} = line, columns = starts(line), written = "it is written " + WRITTEN[kind], end = line.text.length + 1;
  if (MANY[kind]) {
    const [first, most] = MANY[kind];
    if (words.length <= first) return cause("too few words: " + written, end);
    if (words.length - first <= most) return null;
    return cause((words.length - first) + " words: a line has " + most + " at most; begin another line", columns[first + most]);
  }
  const [size] = LINES[kind];
  if (words.length < size) return cause("too few words: " + written, end);
  return words.length > size ? cause("too many words: " + written, columns[size]) : null;
}

/** What helps if a symbol is in a number's place; nothing if the word is no symbol that the session has.
 * @param {string} word
 * @param {Line} line
 * @param {Known} known */
function symbolHelp(word, line, known) {
  const slots = JOB_LINES.includes(line.kind) && isOctal(line.words[1]) ? [number(line.words[1])] : [];
  const found = [...slots, known.slot].map(slot => known.symbolsOf(slot).values.get(word)).find(one => one !== undefined);
  return found === undefined ? "" : "the symbol " + word + ": the program takes numbers alone, so write " + octal(found) +
    " (a tail of tools/job may have symbols)";
}

/** A word that has not the form that belongs at its place.
 * @param {Line} line
 * @param {Known} known */
function wrongWord(line, known) {
  const {words} = line, columns = starts(line), form = formOf(line);
  const first = line.kind === "a/" && noNumber(words[0].slice(0, -1), columns[0]);
  if (first) return first;
  for (let at = 1; at < words.length; at += 1) {
    const kind = form[at - 1] || "n";
    if (kind === "con" && words[at] === "-") continue;
    if (kind === "run") {
      if (["RUN", "STOP"].includes(words[at])) continue;
      return cause("RUN or STOP is wanted here", columns[at]);
    }
    const help = kind === "n" && symbolHelp(words[at], line, known);
    if (help) return cause(help, columns[at]);
    const found = kind === "tag" ? noTag(words[at], columns[at]) : kind === "name" ? noName(words[at], columns[at]) : noNumber(words[at], columns[at]);
    if (found) return found;
  }
  return null;
}

/** The cause of SYNTAX.
 * @param {Line} line
 * @param {Known} known */
function syntaxCause(line, known) {
  const byte = badByte(line.text);
  if (byte) return byte;
  const found = line.words.length ? (unknown(line) && remark(line)) || unknown(line) || wrongPlace(line, known) || remark(line) ||
    wrongCount(line) || wrongWord(line, known) : null;
  return found || cause("no line of docs/SESSION.md has this form");
}

/** The words of a line as numbers, -1 for one that is none.
 * @param {Line} line */
function numbersOf(line) {
  return line.words.map(word => word.replace(/\/+$/, "")).map(word => isOctal(word) ? parseInt(word, 8) : -1);
}

/** The cause of RANGE.
 * @param {Line} line
 * @param {Known} known */
function rangeCause(line, known) {
  const values = numbersOf(line), columns = starts(line);
  let ranges = RANGES[line.kind] || [];
  if (JOB_LINES.includes(line.kind) || line.kind === "TICK") {
    ranges = [[1, 0, line.version === 2 ? 0o137 : 0o77, "a slot"], ...ranges];
  }
  if (["TYPE", "IN", "OUT"].includes(line.kind)) ranges = values.slice(2).map((_, at) => [at + 2, 0, 0o177, "a byte"]);
  if (isInState(line)) ranges = [...stateRanges(line), ...ranges];
  for (const [at, least, most, what] of ranges) {
    if (values[at] < least || values[at] > most) {
      return cause(what + " is " + octal(least) + " to " + octal(most) + " here (" + least + " to " + most + " in decimal), and this is " +
                   octal(values[at]) + " (" + values[at] + ")", columns[at]);
    }
  }
  const found = isInState(line) ? stateCause(line, "RANGE", columns, known) : null, past = " go past the last address, 777777";
  if (found) return found;
  if (["EXAM", "LIST"].includes(line.kind)) return cause(octal(values[3]) + " words from " + octal(values[2]) + " on" + past, columns[2]);
  if (line.kind === "a/") return cause((values.length - 1) + " words from " + octal(values[0]) + " on" + past, columns[0]);
  if (line.kind === "CLOCK") return cause("the clock is at " + octal(known.clock) + ", and has to stay below 200000000000", columns[1]);
  return cause("a number lies outside its range");
}

/** The cause of NOPAGE.
 * @param {Line} line */
function pageCause(line) {
  const values = numbersOf(line), columns = starts(line);
  if (line.kind === "RO") return cause("page " + octal(values[1]) + " is not there: load a word into it first", columns[1]);
  const last = values[2] + (["EXAM", "LIST"].includes(line.kind) ? values[3] - 1 : 0);
  const pages = [...new Set([values[2] >> 10, last >> 10])];
  const said = pages.map(page => octal(page) + " (addresses " + octal(page * 1024) + " to " + octal(page * 1024 + 0o1777) + ")");
  return cause("slot " + octal(values[1]) + " has not every page of these words: page " + said.join(" and "), columns[2]);
}

/** The cause of NOJOB.
 * @param {Line} line
 * @param {Known} known */
function jobCause(line, known) {
  const made = [...new Set(known.made)].sort((one, other) => one - other).map(octal);
  return cause("there is no job in slot " + line.words[1] + " now; " + (known.hasState ? "JOB and LOAD have made " : "LOAD has made ") + (made.length ?
    "jobs in " + (made.length === 1 ? "slot " : "slots ") + made.join(", ") : "none"), starts(line)[1]);
}

/** The cause of FULL.
 * @param {Line} line */
function fullCause(line) {
  const most = line.version === 2 ? 96 : 64;
  return cause(line.kind === "LOAD" ? "there are " + most + " jobs, the most that there can be in version " + line.version :
               FULL[line.kind] || "there is no room", starts(line)[0]);
}

/** The causes by their reasons.
 * @type {Record<string, (line: Line, known: Known) => Cause>} */
const CAUSES = {
  CUT: line => cause("the input ends inside " + (line.block === "SYSTEM" ? "the state part" : "the block of " + line.block) + ", which is open since " +
                     atLine(line.since) + ": its " + (CLOSES[line.block] || "end") + " is missing"),
  LONG: line => cause("the line has " + line.text.length + " bytes, and may have 255", 256),
  SYNTAX: syntaxCause,
  RANGE: rangeCause,
  NOCONS: line => cause("consoles are 0 to 7", starts(line)[line.kind === "LOAD" ? 3 : line.kind === "JOB" ? 4 : 1]),
  NOJOB: jobCause,
  NOPAGE: pageCause,
  READONLY: line => line.kind === "a/" ? cause("a word of this line lies on a page that is read only", starts(line)[0]) :
    cause("the page of this word is read only", starts(line)[2]),
  NOFILE: line => cause("no file has these names: directory, name 1, name 2", starts(line)[1]),
  EXISTS: line => cause("there is already a file with these names", starts(line)[1]),
  FULL: fullCause
};

/** The cause of a refusal.
 * @param {Exchange} exchange
 * @param {Known} known
 * @returns {Cause} */
export function causeOf({line, reason}, known) {
  const found = CAUSES[reason], own = isInState(line) && reason !== "RANGE" ? stateCause(line, reason, starts(line), known) : null;
  if (own) return own;
  return found ? found(line, known) : cause('docs/SESSION.md, "Refusals", has the reasons');
}
