// For the commands: a session that is cut after one of its ticks and saved there, and that goes on from the checkpoint: what `save` writes.

import {cutAt} from "./cutting.js";
import {differenceOf, frameOf, seenOf} from "./disturbing.js";
import {joined, kindOf, split, wordsIn} from "./session.js";
import {peekOf, toldOf} from "./transcript.js";
import {octal} from "./words.js";

/** @typedef {import("./cutting.js").Tick} Tick */

/** What the program wrote of the runs of a cut: the session up to the cut, with a PEEK there; the checkpoint, and the checkpoint of the checkpoint;
 * the session uncut; the rest after the checkpoint; the session with each job disturbed at the cut; and what `verify` says.
 * @typedef {{looked: string, saved: string, again: string, uncut: string, after: string, disturbed: string, verdict: string}} Wrote */

/** Lines of a transcript, with the line that is refused counted from a cut after so many lines of the session.
 * @param {string[]} shown
 * @param {number} before */
function counted(shown, before) {
  return shown.map(line => line.replace(/^\? ([0-7]+) /, (_, number) => "? " + octal(parseInt(number, 8) - before) + " "));
}

/** A session that is cut after a tick. */
export class Cut {
  /** @param {string} name
   * @param {string[]} lines of the session
   * @param {Tick} tick */
  constructor(name, lines, tick) {
    this.name = name;
    this.tick = tick;
    const [before, rest] = cutAt(lines, tick), end = rest.findIndex(line => kindOf(wordsIn(line)) === "END");
    this.before = before;
    this.rest = [...rest.slice(0, end < 0 ? rest.length : end), "END"];
  }

  /** The session up to the cut. */
  begun() { return joined(this.before); }

  /** The same, and how far the job of the tick is there. */
  look() { return joined([...this.before, "PEEK " + octal(this.tick.slot)]); }

  /** The session, which is not saved. */
  uncut() { return joined([...this.before, ...this.rest]); }

  /** The rest after the checkpoint.
   * @param {string} saved */
  after(saved) { return saved + joined(this.rest); }

  /** Lines that disturb each job that a checkpoint has.
   * @param {string} saved */
  looks(saved) { return split(saved).filter(line => line.startsWith("JOB ")).map(line => "STATE " + wordsIn(line)[1]); }

  /** The session, with each job disturbed at the cut.
   * @param {string} saved */
  disturbed(saved) { return joined([...this.before, ...this.looks(saved), ...this.rest]); }

  /** The lines that a run shows after the cut, and after so many lines put in there.
   * @param {string} looked
   * @param {string} transcript */
  shown(looked, transcript, more = 0) { return split(transcript).slice(split(looked).length - 1 + more); }

  /** The rest after the checkpoint, with what the uncut session shows of it, for `verify`.
   * @param {string} saved
   * @param {string} looked
   * @param {string} uncut */
  judged(saved, looked, uncut) { return this.after(saved) + joined(this.shown(looked, uncut)); }

  /** What is not as it has to be, nothing if all is.
   * @param {Wrote} wrote */
  fault({looked, saved, again, uncut, after, disturbed, verdict}) {
    if (again !== saved) return "the checkpoint of the checkpoint is another one";
    if (!verdict.startsWith("YES ")) return "what the session shows of the rest is not licensed after the checkpoint: " + verdict.trim();
    const jobs = this.looks(saved).length, own = counted(split(after), split(saved).length);
    const other = counted(this.shown(looked, disturbed, jobs), this.before.length + jobs), at = own.findIndex((line, place) => line !== other[place]);
    if (at < 0 && own.length === other.length) return "";
    const [one, two] = [own, other].map(lines => at < 0 ? lines.length + " lines" : lines[at]);
    return "the rest shows " + one + ", and with each job disturbed " + two;
  }

  /** What the rest shows after the checkpoint and not uncut, because a job was some ticks late; nothing if nothing differs.
   * @param {Wrote} wrote */
  late({saved, uncut, after}) {
    const rest = toldOf(this.name, this.after(saved), after).slice(split(saved).length), last = rest[rest.length - 1];
    if (last.reason) return "line '" + last.line.text + "' comes too early and is refused as " + last.reason;
    return differenceOf(seenOf(toldOf(this.name, this.uncut(), uncut).slice(this.before.length)), seenOf(rest), "saved");
  }

  /** How far the job is at the cut, and how many steps bring it to user mode.
   * @param {string} looked */
  met(looked) {
    const last = split(looked).pop() || "";
    return last.startsWith("?") ? {frame: "no job", left: 0} : frameOf(peekOf(last.split(" ")));
  }
}
