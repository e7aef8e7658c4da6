// Shared by the page and the commands: what the lines of the state part of a session mean (docs/SESSION.md, "The state part"), in words.

import {Known, bitsInWords} from "./readings.js";
import {countOf, flagsOf, number, octal, pcOf, short, sixbit, twelve, typed} from "./words.js";

/** @typedef {import("./session.js").Line} Line */
/** @typedef {import("./transcript.js").Exchange} Exchange */

/** A name, which the state part may write as the word that it is; a word that is that of no name is shown as it is.
 * @param {string} tag */
export function tagSaid(tag) {
  const name = /^[0-7]{12}$/.test(tag) ? sixbit(tag) : tag;
  return name && !name.includes(" ") ? name : tag;
}

/** Three names from a place of a line on.
 * @param {Line} line
 * @param {number} at
 * @returns {[string, string, string]} */
export function namesAt({words}, at) { return [tagSaid(words[at]), tagSaid(words[at + 1]), tagSaid(words[at + 2])]; }

/** The names of a file.
 * @param {string} directory
 * @param {string} one
 * @param {string} two */
export function fileOf(directory, one, two) { return one + " " + two + " in directory " + directory; }

/** A channel of a slot, by the first words of its line.
 * @param {Line} line */
function channelOf({words}) { return "channel " + short(words[2]) + " of slot " + short(words[1]); }

/** Whether a flag is 1: output, or leave to write.
 * @param {string} word */
function isSet(word) { return number(word) === 1; }

/** The end of a link.
 * @param {string} flag */
function endOf(flag) { return isSet(flag) ? "writing end" : "reading end"; }

/** What each line says, by its kind.
 * @type {Record<string, (exchange: Exchange, known: Known) => string[]>} */
export const STATE_SAYS = {
  SYSTEM({line}, known) {
    known.hasState = true;
    return ["the state part: its lines, up to READY, make a system, in version " + line.version + " of the session text"];
  },

  JOB({line}, known) {
    const [, slot, user, job, console] = line.words;
    known.begin(number(slot));
    return ["a job " + tagSaid(user) + " " + tagSaid(job) + " is made in slot " + short(slot) + ", " +
            (console === "-" ? "without a console" : "with console " + console)];
  },

  REGS({line}, known) {
    const [, run, pc, ...bits] = line.words.map((word, at) => at > 1 ? twelve(word) : word), flags = flagsOf(pc), slot = known.slot;
    known.settle();
    const names = ["pending", "mask", "deferred"].flatMap((name, at) => bitsInWords(name, bits[2 * at], bits[2 * at + 1]));
    return ["the job in slot " + octal(slot) + (run === "RUN" ? " runs" : " is stopped") + ", PC " + pcOf(pc) + known.symbolsOf(slot).near(number(pc.slice(6))) +
            ", " + (flags.length ? "flags: " + flags.join(", ") : "no flag on"), ...names];
  },

  ALARM({line}) {
    const [, slot, period, next] = line.words;
    return ["slot " + short(slot) + " has an alarm, next when the clock is at " + short(next) + ", then each " + short(period) + " thirtieths of a second"];
  },

  UNDER: ({line}) => ["slot " + short(line.words[2]) + " is the superior of slot " + short(line.words[1])],

  TTY: ({line}) => [channelOf(line) + " is on its console, for " + (isSet(line.words[3]) ? "output" : "input")],

  DSK: ({line}) => [channelOf(line) + " reads the file " + fileOf(...namesAt(line, 3)) + ", from word " + short(line.words[6]) + " on"],

  DRAFT: ({line}) => [channelOf(line) + " writes a draft of the file " + fileOf(...namesAt(line, 3))],

  WROTE: ({line}) => ["the draft of " + channelOf(line) + " has " + countOf(line.words.length - 3, "more word")],

  USR({line}) {
    const [, , , inferior, flag, at] = line.words;
    return [channelOf(line) + " is on its inferior in slot " + short(inferior) + ", to " + (isSet(flag) ? "read and write" : "read") + ", at word " + short(at)];
  },

  LNK({line}) {
    const [, , , link, flag, one, two] = line.words;
    return [channelOf(line) + " is the " + endOf(flag) + " of link " + short(link) + ", " + tagSaid(one) + " " + tagSaid(two)];
  },

  SENT: ({line}) => [countOf(line.words.length - 2, "more word waits", "more words wait") + " in link " + short(line.words[1])],

  SHUT: ({line}) => ["the " + endOf(line.words[2]) + " of link " + short(line.words[1]) + " is closed, and was never opened"],

  IN: ({line}) => ["typed at console " + line.words[1] + ", and not taken: " + typed(line.words.slice(2))],

  OUT: ({line}) => ["put out at console " + line.words[1] + ", and not drained: " + typed(line.words.slice(2))],

  HOLD: ({line}) => ["slot " + short(line.words[2]) + " holds console " + line.words[1]],

  TURN: ({line}) => ["slot " + short(line.words[1]) + " had the last turn of RUN"],

  READY: () => ["the system is made: what follows goes on from here"]
};
