// Shared by the page and the commands: what a job is doing at the end of a session, in one sentence, from lines that are added there.

import {callText} from "./readings.js";
import {Symbols} from "./symbols.js";
import {joined, split} from "./session.js";
import {peekOf, stateOf} from "./transcript.js";
import {ERRORS, PENDING, STATES, bits, callName, isOn, number, octal, pcOf, value} from "./words.js";

/** What the program writes, if it obeys a command, "run" or "asm", on an input.
 * @typedef {(kind: string, input: string) => string} Run */

const BREAK = 1;                         // the bit that .BREAK sets
const MOST = 8;                          // words that one line EXAM shows
const NO_ERROR = "its block has no error address, which would say why";

/** A job at the end of a session that is not refused. */
class Place {
  /** @param {Run} run
   * @param {string[]} lines
   * @param {number} slot
   * @param {Symbols} symbols */
  constructor(run, lines, slot, symbols) {
    this.run = run;
    this.lines = lines;
    this.slot = octal(slot);
    this.symbols = symbols;
  }

  /** The words of the line that answers this one at the end; none if it is refused.
   * @param {string} line */
  asked(line) {
    const answer = split(this.run("run", joined([...this.lines, line]))).pop() || "";
    return answer.startsWith("?") ? [] : answer.split(" ");
  }

  /** Words of the job.
   * @param {number} from
   * @param {number} count */
  words(from, count) { return from < 0 ? [] : this.asked("EXAM " + this.slot + " " + octal(from) + " " + octal(count)).slice(3); }

  /** An address, with its symbol.
   * @param {number} address */
  at(address) { return octal(address) + this.symbols.near(address); }

  /** The instruction at an address.
   * @param {number} address */
  instruction(address) {
    const [, , , ...words] = this.asked("LIST " + this.slot + " " + octal(address) + " 1");
    return words.length ? ": " + this.symbols.typed(words.join(" ")) : "";
  }

  /** Why a call at this address failed, if it is a plain one.
   * @param {number} address */
  failure(address) {
    const [call] = this.words(address, 1);
    if (!call || !callText(call).startsWith(".CALL") || bits(call, 13, 17)) return "";
    const block = bits(call, 18, 35), words = this.words(block, MOST), name = callName(words[1] || "-");
    if (!words.length) return "; the call before it, at " + this.at(address) + ", failed: no words are at its block";
    const error = words.slice(2).find((word, index) => bits(word, 6, 8) === 3 && !words.slice(2, index + 2).some(one => bits(one, 0, 0)));
    const [found] = error === undefined ? [] : this.words(bits(error, 18, 35), 1), code = value(found || "");
    const why = error === undefined ? NO_ERROR : ERRORS[code] ? "error " + octal(code) + ", " + ERRORS[code] : "";
    return "; the call before it, " + name + " at " + this.at(address) + ", failed" + (why ? ": " + why : "");
  }

  /** What stopped a job.
   * @param {Record<string, string>} state */
  stopped(state) {
    const pc = value(pcOf(state.pc)), pending = number(state.pending1), bit = PENDING.find(([one]) => isOn(pending, one));
    if (!bit) return "it is stopped at " + this.at(pc);
    if (isOn(pending, BREAK)) return "it stopped by the .BREAK at " + this.at(pc - 1) + this.failure(pc - 2);
    return "it is stopped by " + bit[1] + " (" + bit[2] + ") at " + this.at(pc) + this.instruction(pc);
  }

  /** What the job is doing. */
  said() {
    const words = this.asked("PEEK " + this.slot);
    if (!words.length) return "there is no job in slot " + this.slot;
    const peek = peekOf(words), state = stateOf(this.asked("STATE " + this.slot)), pc = value(pcOf(state.pc));
    if (state.run === "STOP" || number(state.pending1) % 2) return this.stopped(state);
    if (peek.state === "USER") return "it runs at " + this.at(pc) + this.instruction(pc);
    const call = peek.call === "-" ? "a call" : callName(peek.call);
    return "it is in " + call + " at " + this.at(pc) + " (" + peek.state + ": " + STATES[peek.state] + ")";
  }
}

/** What a job is doing at the end of a session that is not refused, in a sentence.
 * @param {Run} run
 * @param {string[]} lines
 * @param {number} slot
 * @param {Iterable<[string, number]>} symbols */
export function whereabouts(run, lines, slot, symbols) { return new Place(run, lines, slot, new Symbols(symbols)).said(); }
