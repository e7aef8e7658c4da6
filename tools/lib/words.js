// Shared by the page and the commands: words of 36 bits, and the names of what is in them: SIXBIT, ASCII, calls, pending bits, errors,
// flags. The tables are those of docs/CALLS.md and docs/MACHINE.md. Numbers of a session and of a transcript are octal, as text.

/** What was given is wrong, with one line that says why. */
export class Wrong extends Error {}

/** The calls of docs/CALLS.md by their names in SIXBIT. No block can name .IOT: PEEK alone shows this name.
 * @type {Record<string, string>} */
export const CALLS = {
  "504156470000": "HANG", "635445456000": "SLEEP", "445163555163": "DISMIS", "656362664162": "USRVAR", "545747576564": "LOGOUT",
  "576045560000": "OPEN", "435457634500": "CLOSE", "635157640000": "SIOT", "465156516350": "FINISH", "545163644556": "LISTEN",
  "646471545644": "TTYLND", "414343456363": "ACCESS", "465154544556": "FILLEN", "444554456445": "DELETE", "624556415545": "RENAME",
  "656362554555": "USRMEM", "654354576345": "UCLOSE", "435762425453": "CORBLK", "624541546400": "REALT", "515764000000": ".IOT"};

export const MOST_ARGUMENTS = 8;         // argument words of a block

/** Error numbers of calls.
 * @type {Record<number, string>} */
export const ERRORS = {
  0o1: "no such call", 0o2: "too few arguments", 0o3: "too many arguments", 0o4: "bad channel", 0o5: "wrong device or direction",
  0o6: "no such file", 0o7: "directory full", 0o10: "device full", 0o11: "file locked", 0o12: "no such job", 0o13: "not your inferior",
  0o14: "no free slot", 0o15: "no core", 0o16: "page there, not there or read only", 0o17: "argument must be a word",
  0o20: "the byte's word is one that the call reads", 0o21: "bad byte pointer", 0o22: "number out of range", 0o23: "file exists",
  0o24: "link end in use", 0o25: "no free link", 0o26: "nobody reads"};

/** Bits of pending word 1, and of its mask and deferral, with their names; those in FATAL are fatal.
 * @type {[number, string, string][]} */
export const PENDING = [
  [0o1, "BRK", "a .BREAK"], [0o2, "ILO", "an illegal operation"], [0o4, "MPV", "an absent page"],
  [0o10, "WRO", "a store to a read-only page"], [0o20, "IOC", "an .IOT that failed"], [0o40, "TBL", "a delivery that cannot be made"],
  [0o100, "PDL", "a pushdown count ran out"], [0o200, "INF", "an inferior was stopped or logged out"], [0o400, "ALR", "an alarm is due"]];
export const FATAL = 0o77;

/** Flags, in the left half of a PC word.
 * @type {[number, string][]} */
export const FLAGS = [
  [0o400000, "overflow"], [0o200000, "carry 0"], [0o100000, "carry 1"], [0o040000, "floating overflow"], [0o020000, "first part done"],
  [0o010000, "user"], [0o000040, "no divide"]];

/** How far a job is inside a call, by docs/SESSION.md.
 * @type {Record<string, string>} */
export const STATES = {
  USER: "in user mode", ENTERED: "the call was entered", PARSED: "its block is read", ASKED: "its arguments are found",
  HOLDING: "it is ready to be tried", WAITING: "it waits", MOVING: "a byte or word is taken and not stored yet",
  ENDING: "it is decided, and its end is pending"};

/** What each call that can wait waits for.
 * @type {Record<string, string>} */
export const WAITS = {
  HANG: "for ever", SLEEP: "until its time has come", ".IOT": "for its console or its link", SIOT: "for its console or its link",
  FINISH: "until its console has no output", LISTEN: "until its console has no output"};

/** What a tick of each letter is, one and several.
 * @type {Record<string, [string, string]>} */
export const TICKS = {
  "*": ["step", "steps"], ".": ["tick of the monitor's work", "ticks of the monitor's work"], w: ["tick of waiting", "ticks of waiting"],
  "-": ["tick with no job that runs", "ticks with no job that runs"]};

/** Whether a text is an octal number.
 * @param {string | undefined} word */
export function isOctal(word) { return /^[0-7]+$/.test(word || ""); }

/** A number; 0 if the text is empty or no octal number.
 * @param {string} word */
export function value(word) { return parseInt(word, 8) || 0; }

/** A number in octal.
 * @param {number} whole */
export function octal(whole) { return whole.toString(8); }

/** The value of an octal number, which the text has to be. A word that is missing is one of an answer.
 * @param {string | undefined} word */
export function number(word) {
  if (word === undefined) throw new Wrong("the transcript's answer is too short");
  if (!isOctal(word)) throw new Wrong("'" + word + "' is no octal number");
  return parseInt(word, 8);
}

/** Some bits of a word, numbered from the left; 36 bits are too many for JavaScript's own operations.
 * @param {string} word
 * @param {number} first
 * @param {number} last */
export function bits(word, first, last) { return Math.floor(value(word) / 2 ** (35 - last)) % 2 ** (last - first + 1); }

/** Whether a bit, given by its value, is on in a number.
 * @param {number} whole
 * @param {number} bit */
export function isOn(whole, bit) { return Math.floor(whole / bit) % 2 === 1; }

/** A word with 12 digits.
 * @param {string} word */
export function twelve(word) { return word.padStart(12, "0").slice(-12); }

/** A word without its leading zeros.
 * @param {string} word */
export function short(word) { return word.replace(/^0+/, "") || "0"; }

/** The name that a word holds in SIXBIT, without the spaces at its end.
 * @param {string} word */
export function sixbit(word) {
  return [0, 1, 2, 3, 4, 5].map(at => String.fromCharCode(bits(word, 6 * at, 6 * at + 5) + 32)).join("").trimEnd();
}

/** The SIXBIT word of a name, 12 digits.
 * @param {string} name */
export function asSixbit(name) {
  return [...name.padEnd(6)].map(one => octal(one.charCodeAt(0) - 32).padStart(2, "0")).join("");
}

/** Whether a byte is a printing character.
 * @param {number} code */
export function isPrinting(code) { return code >= 32 && code < 127; }

/** A byte as a character: in quotes if it can be printed, else its code.
 * @param {number} code */
export function character(code) { return isPrinting(code) ? "'" + String.fromCharCode(code) + "'" : "<" + octal(code) + ">"; }

/** Bytes as text in quotes: what can be printed as it is, any other byte as its code.
 * @param {string[]} words */
export function typed(words) {
  return '"' + words.map(number).map(code => isPrinting(code) ? String.fromCharCode(code) : "<" + octal(code) + ">").join("") + '"';
}

/** The characters of a word that holds text in five bytes of 7 bits, zeros at its end; nothing if it cannot be text.
 * @param {string} word */
export function asciiOf(word) {
  const codes = [0, 1, 2, 3, 4].map(at => bits(word, 7 * at, 7 * at + 6));
  while (codes.length && codes[codes.length - 1] === 0) codes.pop();
  const isText = (/** @type {number} */ code) => isPrinting(code) || code === 9 || code === 10 || code === 13;
  if (bits(word, 35, 35) || !codes.length || codes[codes.length - 1] === 32 || !codes.every(isText)) return "";
  return typed(codes.map(octal));
}

/** The name of a call from its word; `-` and a word that is no call's are themselves.
 * @param {string} word */
export function callName(word) { return word === "-" ? word : CALLS[word] || sixbit(word) || word; }

/** The names of the bits of a number that are on; those without a name as one octal number at the end.
 * @param {number} whole
 * @param {[number, string, ...string[]][]} table */
export function bitNames(whole, table) {
  const on = table.filter(([bit]) => isOn(whole, bit)), rest = on.reduce((left, [bit]) => left - bit, whole);
  return [...on.map(([, name]) => name), ...(rest ? [octal(rest)] : [])];
}

/** The names of the bits of a pending word 1, a mask 1 or a deferral 1.
 * @param {string} word */
export function pendingNames(word) { return bitNames(number(word), PENDING); }

/** The address in a PC word, without leading zeros.
 * @param {string} word */
export function pcOf(word) { return short(word.slice(6)); }

/** The flags in a PC word, without `user`, which is on in each.
 * @param {string} word */
export function flagsOf(word) { return bitNames(number(word.slice(0, 6)), FLAGS).filter(name => name !== "user"); }

/** The value of a word in two's complement.
 * @param {string} word */
export function signed(word) {
  const whole = number(word);
  return whole >= 2 ** 35 ? whole - 2 ** 36 : whole;
}

/** A byte pointer in words; nothing if the word is none that SIOT takes.
 * @param {string} word */
export function bytePointer(word) {
  const place = bits(word, 0, 5), size = bits(word, 6, 11), address = octal(bits(word, 18, 35));
  if (size === 0 || size > 36 || bits(word, 12, 17) || place > 36) return "";
  if (size === 36 && place % 36 === 0) return (place ? "before" : "at") + " the word at " + address;
  if (place === 36) return "before the first byte of " + address + ", bytes of " + size + " bits";
  if ((36 - place) % size === 0) return "at byte " + (36 - place) / size + " of " + address + ", bytes of " + size + " bits";
  return "at the byte of " + address + " with " + place + " bits to its right, bytes of " + size + " bits";
}

/** What a MOVING job holds, by its pointer: a byte as a character, a word of a file or an inferior without leading zeros.
 * @param {string} word
 * @param {string} pointer */
export function held(word, pointer) {
  return pointer.slice(2, 4) === "44" || number(word) > 127 ? short(word) : character(number(word));
}

/** A PC word in words, if the word is one: the flag `user` is on, and only flags are in its left half.
 * @param {string} word */
export function pcWord(word) {
  const left = number(word.slice(0, 6)), known = FLAGS.reduce((sum, [bit]) => sum + (isOn(left, bit) ? bit : 0), 0);
  if (!isOn(left, 0o010000) || left !== known) return "";
  return ["PC " + pcOf(word), ...flagsOf(word)].join(", ");
}

/** A count: decimal, and from 8 on marked by the octal number.
 * @param {number} count */
export function counted(count) { return count + (count > 7 ? " (octal " + octal(count) + ")" : ""); }

/** So many of a thing.
 * @param {number} count
 * @param {string} one
 * @param {string} [more] */
export function countOf(count, one, more) { return counted(count) + " " + (count === 1 ? one : more || one + "s"); }
