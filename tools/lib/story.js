// Shared by the page and the commands: the story of a session: what happens in it, job by job, as far as the session and its transcript show.

import {JOB_LINES, isInState, linesOf} from "./session.js";
import {tagSaid} from "./state_said.js";
import {Transcript, exchanges, fitting, peekOf, runsOf, stateOf, unrolled, wordsOf} from "./transcript.js";
import {Wrong, callName, counted, held, number, octal, pcOf, short, sixbit, typed} from "./words.js";

/** @typedef {import("./session.js").Line} Line */
/** @typedef {import("./transcript.js").Exchange} Exchange */

/** A job, as far as the transcript shows it; or a slot in which no job was seen yet. `names`: user name and job name, if a LOAD or an S line
 * gives them; `note`: its console, its superior, or how it was made.
 * @typedef {{slot: number, seen: boolean, names: string, note: string}} Lane */

/** Ticks of one lane with the same letter. `start`: how many ticks of the session came before; `line`: the line that asked for the first.
 * @typedef {{lane: Lane, letter: string, count: number, start: number, line: number}} Run */

/** Something that falls between two ticks. Without a lane it is about no single job. Its kind is made, seen, gone, disturb, look, other or
 * refused; of its labels the longest one comes first; its tip is the whole line and what the transcript answers; `at` ticks came before.
 * @typedef {{lane: Lane | null, kind: string, labels: string[], tip: string, at: number, line: number}} Mark */

/** @typedef {Run | Mark} Piece */

/** Whether a piece is a mark.
 * @param {Piece} piece
 * @returns {piece is Mark} */
export function isMark(piece) { return !("letter" in piece); }

/** All that happens in a session, in its order; or between two of its lines. */
export class Story {
  constructor(first = 1, last = Infinity) {
    this.first = first;
    this.last = last;
    /** @type {Piece[]} */
    this.pieces = [];
    /** @type {Lane[]} */
    this.lanes = [];
    /** @type {Map<number, Lane>} */
    this.current = new Map();            // slot -> its lane now
    this.ticks = 0;
    this.line = 0;                       // the line of the session that is looked at
    /** @type {Mark | null} */
    this.loading = null;
  }

  isTold() { return this.first <= this.line && this.line <= this.last; }

  /** Adds a mark, and returns it.
   * @param {Lane | null} lane
   * @param {string} kind
   * @param {string[]} labels
   * @param {string} [tip] */
  mark(lane, kind, labels, tip) {
    const mark = {lane, kind, labels, tip: tip || labels[0], at: this.ticks, line: this.line};
    if (this.isTold()) this.pieces.push(mark);
    return mark;
  }

  /** Adds ticks of a lane; those that go on with a run are added to it.
   * @param {Lane} lane
   * @param {string} letter
   * @param {number} count */
  run(lane, letter, count) {
    const last = this.pieces[this.pieces.length - 1];
    if (last && !isMark(last) && last.letter === letter && last.lane === lane && this.isTold()) last.count += count;
    else if (this.isTold()) this.pieces.push({lane, letter, count, start: this.ticks, line: this.line});
    this.ticks += count;
  }

  /** The lane of a slot, in which a job need not have been seen.
   * @param {number} slot */
  laneOf(slot) {
    const found = this.current.get(slot);
    if (found) return found;
    const lane = {slot, seen: false, names: "", note: ""};
    this.current.set(slot, lane);
    this.lanes.push(lane);
    return lane;
  }

  /** The job of a slot was removed at some time before.
   * @param {number} slot */
  gone(slot) {
    const lane = this.current.get(slot);
    if (!lane || !lane.seen) return;
    this.current.delete(slot);
    this.mark(lane, "gone", ["gone by now", "gone"]);
  }

  /** LOAD or JOB made a job in a slot, so that the one that was there before is gone.
   * @param {number} slot
   * @param {string} names
   * @param {string} console */
  made(slot, names, console) {
    this.gone(slot);
    return Object.assign(this.laneOf(slot), {seen: true, names, note: console === "-" ? "" : "console " + console});
  }

  /** The lane of a slot in which there is a job now. One that no LOAD made was made by a call.
   * @param {number} slot */
  jobOf(slot) {
    const lane = this.laneOf(slot);
    if (!lane.seen) {
      Object.assign(lane, {seen: true, note: "made by a call"});
      this.mark(lane, "seen", ["seen first", "seen"]);
    }
    return lane;
  }

  /** An S line shows the names of the job in a slot; other names than before are another job's.
   * @param {number} slot
   * @param {string} names
   * @param {string} superior
   * @param {string} console */
  named(slot, names, superior, console) {
    if (!["", names].includes(this.jobOf(slot).names)) this.gone(slot);
    const lane = this.jobOf(slot);
    lane.names = names;
    if (superior !== "-") lane.note = "inferior of slot " + superior;
    else if (console !== "-") lane.note = "console " + console;
    return lane;
  }
}

/** EXAM: the addresses and the words, as many whole words as there is room for; or the addresses alone.
 * @param {string[]} answer */
export function examLabels(answer) {
  const first = number(answer[2]), words = answer.slice(3).map(short);
  const place = "EXAM " + octal(first) + (words.length > 1 ? "-" + octal(first + words.length - 1) : "");
  const some = words.slice(1).map((_, at) => place + " = " + words.slice(0, words.length - 1 - at).join(" ") + " …");
  return [place + " = " + words.join(" "), ...some, place, "EXAM"];
}

/** PEEK: the call, the state, the steps to user mode and what is held.
 * @param {string[]} answer */
export function peekLabels(answer) {
  const peek = peekOf(answer);
  if (peek.state === "USER") return ["PEEK USER", "USER"];
  const taken = peek.held === "-" ? "" : " " + held(peek.held, peek.a), call = peek.call === "-" ? "" : callName(peek.call) + " ";
  return ["PEEK " + call + peek.state + " " + octal(peek.left) + taken, "PEEK " + peek.state + " " + octal(peek.left), "PEEK"];
}

/** A line that names a job, and is not refused.
 * @param {Story} story
 * @param {Exchange} exchange
 * @param {string} tip */
function tellJobLine(story, exchange, tip) {
  const {words} = exchange.line, answer = wordsOf(exchange), [first] = words, slot = number(words[1]);
  let lane = story.jobOf(slot), labels = [[first, ...words.slice(2)].join(" "), first];
  if (first === "EXAM") labels = examLabels(answer);
  else if (first === "LIST") labels = ["LIST " + octal(number(words[2])), first];
  else if (first === "STATE") {
    const state = stateOf(answer);
    lane = story.named(slot, sixbit(state.user) + " " + sixbit(state.job), state.superior, state.console);
    labels = ["STATE " + state.run + " at " + pcOf(state.pc), "STATE"];
  } else if (first === "PEEK") labels = peekLabels(answer);
  story.mark(lane, first === "PEEK" ? "look" : "disturb", labels, tip);
}

/** A line on a console, the clock or files. It disturbs no job, except that CLOCK disturbs those with a due alarm.
 * @param {Story} story
 * @param {Exchange} exchange
 * @param {string} tip */
function tellOtherLine(story, exchange, tip) {
  const {words} = exchange.line, answer = wordsOf(exchange), brief = words.slice(0, 2).join(" ");
  let labels = [words.join(" "), words[0]];
  if (words[0] === "TYPE") {
    labels = [brief + " " + typed(words.slice(2)), brief];
    if (answer[2] !== "0") labels = labels.map(one => answer[2] + " lost of " + one);
  } else if (words[0] === "DRAIN") labels = [brief + " " + typed(answer.slice(2)), brief];
  else if (words[0] === "DIR") labels = [brief + ": " + answer[2], "DIR"];
  story.mark(null, "other", labels, tip);
}

/** A line is refused, which ends the session.
 * @param {Story} story
 * @param {Exchange} exchange */
function tellRefusal(story, {line, reason}) {
  let lane = null;
  if (JOB_LINES.includes(line.kind) && line.words.length > 1 && !["SYNTAX", "LONG", "RANGE"].includes(reason)) {
    lane = story.current.get(number(line.words[1])) || null;
    if (reason === "NOJOB") story.gone(number(line.words[1]));
  }
  story.mark(lane, "refused", ["refused: " + reason, reason], (line.text || "the input ends") + " -> " + reason);
}

const UNTOLD = ["", "VERSION", "a/", "RO", "SYM", "/", "EOF", "RUN", "END"];

/** A line of the state part: the jobs that it makes are told, with their superiors.
 * @param {Story} story
 * @param {Line} line
 * @param {string} tip */
function tellState(story, {kind, words}, tip) {
  if (kind === "JOB") {
    const [, slot, user, job, console] = words;
    story.mark(story.made(number(slot), tagSaid(user) + " " + tagSaid(job), console), "made", ["JOB", "JOB"], tip);
  } else if (kind === "UNDER") story.jobOf(number(words[1])).note = "inferior of slot " + short(words[2]);
}

/** One line of the session with its answer.
 * @param {Story} story
 * @param {Exchange} exchange */
function tellOne(story, exchange) {
  const {line, reason, answer} = exchange, tip = [line.text.trim(), ...answer].join(" | ");
  story.line = line.number;
  if (reason) tellRefusal(story, exchange);
  else if (isInState(line)) tellState(story, line, tip);
  else if (line.kind === "LOAD") {
    const [, user, job, console] = line.words, lane = story.made(number(wordsOf(exchange)[1]), user + " " + job, console);
    story.loading = story.mark(lane, "made", ["LOAD", "LOAD"], tip);
  } else if (line.kind === "GO" && story.loading) story.loading.labels[0] += ", GO " + line.words[1];
  else if (line.kind === "TICK") {
    const slot = number(line.words[1]);
    for (const [count, letter] of runsOf(exchange)) story.run(letter === "-" ? story.laneOf(slot) : story.jobOf(slot), letter, count);
  } else if (JOB_LINES.includes(line.kind)) tellJobLine(story, exchange, tip);
  else if (!UNTOLD.includes(line.kind)) tellOtherLine(story, exchange, tip);
}

/** What a story may be of: its first and its last line, and how many pieces it may have.
 * @typedef {{first?: number, last?: number, most?: number}} Part */

/** The story of a session, from its lines with their answers; or of a part of its lines.
 * @param {string} name
 * @param {Exchange[]} told
 * @param {Part} part */
export function tellStory(name, told, {first = 1, last = Infinity, most = Infinity} = {}) {
  const story = new Story(first, last);
  for (const exchange of unrolled(told)) {
    fitting(name, exchange.line, () => tellOne(story, exchange));
    if (story.pieces.length > most) {
      throw new Wrong(name + ": a picture has at most " + counted(most) + " bars and marks, and this one would have more: narrow it by --lines A-B");
    }
  }
  return story;
}

/** The story of a session and its transcript.
 * @param {string} name
 * @param {string} session
 * @param {Transcript} transcript
 * @param {Part} [part] */
export function storyOf(name, session, transcript, part) {
  return tellStory(name, exchanges(name, linesOf(session), transcript), part);
}
