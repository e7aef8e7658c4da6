// Shared by the page and the commands: which lines of a transcript answer which line of a session. If the two do not fit, that is said.

import {shares} from "./shares.js";
import {LINES, atLine, linesOf, slotNamed, split} from "./session.js";
import {Wrong, isOctal, number, octal, value} from "./words.js";

/** @typedef {import("./session.js").Line} Line */

/** A line of a session with the lines of the transcript that answer it.
 * @typedef {object} Exchange
 * @property {Line} line
 * @property {string[]} answer the lines of the transcript
 * @property {string} reason why it is refused; then `answer` is the `?` line
 * @property {number} at how many lines of the transcript came before */

/** The lines of a transcript, taken one after the other. */
export class Transcript {
  /** @param {string} name
   * @param {string | string[]} text */
  constructor(name, text) {
    this.name = name;
    this.lines = typeof text === "string" ? split(text) : text;
    this.at = 0;
  }

  /** The place of the next line, for a complaint. */
  place() { return this.name + ", " + atLine(this.at + 1); }

  /** The words of the next line, none at the end. */
  words() { return this.at < this.lines.length ? this.lines[this.at].split(" ") : []; }

  /** Takes the next line, which has to begin with the letter.
   * @param {string} letter */
  take(letter) {
    const words = this.words();
    if (words[0] !== letter) {
      const found = words.length ? "'" + this.lines[this.at] + "'" : "the end";
      throw new Wrong(this.place() + ": here is " + found + ", but the session asks for a line " + letter);
    }
    this.at += 1;
    return words;
  }

  /** How many of the next lines may be turns of a RUN line.
   * @param {Line} line */
  turns(line) {
    const most = number(line.words[1]), ticks = number(line.words[2]);
    let count = 0;
    while (count < most && this.at + count < this.lines.length && ticksOf(this.lines[this.at + count]) === ticks) count += 1;
    return count;
  }

  /** The ticks of each T line from here to the next line of another kind, and the number of the line of the session that is refused there, in
   * the form that is written, else nothing.
   * @returns {[(number | null)[], string]} */
  turnsAhead() {
    let until = this.at;
    while (until < this.lines.length && this.lines[until].startsWith("T ")) until += 1;
    const words = until < this.lines.length ? this.lines[until].split(" ") : [];
    return [this.lines.slice(this.at, until).map(ticksOf), words.length === 3 && words[0] === "?" ? words[1] : ""];
  }

  /** The reason, if the line of this number is refused here, else nothing.
   * @param {number} lineNumber */
  refusal(lineNumber) {
    const words = this.words();
    if (words.length !== 3 || words[0] !== "?" || words[1] !== octal(lineNumber)) return "";
    this.at += 1;
    return words[2];
  }
}

/** How many ticks a T line has, if it can be a turn of RUN: then the job ran at its beginning.
 * @param {string} answer */
function ticksOf(answer) {
  const words = answer.split(" "), runs = words.slice(2);
  if (words[0] !== "T" || !runs.length || runs[0].endsWith("-") || runs.some(run => !isOctal(run.slice(0, -1)))) return null;
  return runs.reduce((sum, run) => sum + value(run.slice(0, -1)), 0);
}

/** Takes what answers a line that is not refused.
 * @param {Transcript} transcript
 * @param {Line} line */
export function takeAnswer(transcript, line) {
  const [size, letter] = LINES[line.kind] || [null, ""];
  if (size === null || size !== 0 && size !== line.words.length) {
    throw new Wrong("'" + line.words.join(" ") + "' is no line of a session, but is not refused");
  }
  const answer = letter ? transcript.take(letter) : [];
  if (letter === "R") takeMore(transcript, number(answer[2]), "F");
  if (letter === "L") takeMore(transcript, number(line.words[3]) - 1, "L");
  if (letter === "W") takeMore(transcript, Math.ceil(number(answer[4]) / 8), "/");
}

/** Takes so many lines that begin with a letter.
 * @param {Transcript} transcript
 * @param {number} count
 * @param {string} letter */
function takeMore(transcript, count, letter) {
  for (let one = 0; one < count; one += 1) transcript.take(letter);
}

/** Each line of the session up to its END, its end or the line that is refused, with its answer. A RUN may end early, which the transcript
 * does not say: `known` has how many turns the RUN line of a number has, if somebody knows it; else its turns are as many as possible such that
 * all lines fit.
 * @param {string} name
 * @param {Line[]} lines
 * @param {Transcript} transcript
 * @param {Map<number, number>} [known]
 * @returns {Exchange[]} */
export function exchanges(name, lines, transcript, known = new Map()) {
  /** @type {Exchange[]} */
  const told = [];
  /** @type {Map<number, number | null>} */
  let planned = new Map();
  for (let at = 0; at < lines.length; at += 1) {
    const line = lines[at], start = transcript.at;
    const reason = fitting(name, line, () => {
      const refused = transcript.refusal(line.number);
      if (!refused && !["", "a/", "/"].includes(line.kind)) takeAnswer(transcript, line);
      if (!refused && line.kind === "RUN") {
        if (!known.has(line.number) && !planned.has(line.number)) planned = turnsPlanned(lines, at, transcript);
        const turns = known.has(line.number) ? known.get(line.number) : planned.get(line.number);
        transcript.at += turns === null || turns === undefined ? transcript.turns(line) : turns;
      }
      return refused;
    });
    told.push({line, answer: transcript.lines.slice(start, transcript.at), reason, at: start});
    if (reason || line.kind === "END") break;
  }
  if (transcript.words().length) throw new Wrong(transcript.place() + ": nothing in " + name + " asks for this line");
  return told;
}

/** What `act` gives; a complaint of it names the line.
 * @template T
 * @param {string} name
 * @param {Line} line
 * @param {() => T} act
 * @returns {T} */
export function fitting(name, line, act) {
  try {
    return act();
  } catch (problem) {
    if (!(problem instanceof Wrong || problem instanceof TypeError)) throw problem;
    const why = problem instanceof Wrong ? problem.message : "the transcript's answer is too short";
    throw new Wrong(name + ", " + atLine(line.number) + ": " + why);
  }
}

/** How many turns this RUN line has, and each later RUN line that is answered before the next line of the transcript that is no T line:
 * these T lines are shared out among them and the TICK lines between them.
 * @param {Line[]} lines
 * @param {number} at
 * @param {Transcript} transcript
 * @returns {Map<number, number | null>} */
function turnsPlanned(lines, at, transcript) {
  const [ticks, refused] = transcript.turnsAhead();
  /** @type {[number, number | null][]} */
  const takers = [];
  /** @type {number[]} */
  const numbers = [];                  // of each taker that is a RUN; else 0
  for (let next = at; next < lines.length; next += 1) {
    const {words, kind, number: own} = lines[next], letter = (LINES[kind] || [0, ""])[1];
    if (octal(own) === refused || kind === "END" || letter !== "" && letter !== "T") break;
    if (kind === "RUN" && words.length === 3 && isOctal(words[1]) && isOctal(words[2])) {
      takers.push([value(words[1]), value(words[2])]);
      numbers.push(own);
    } else if (letter === "T") {
      takers.push([1, null]);
      numbers.push(0);
    }
  }
  const shared = shares(takers, ticks);
  return new Map(numbers.map((own, index) => [own, shared ? shared[index] : null]));
}

/** The lines of a session that is run with the lines of its transcript.
 * @param {string} name
 * @param {string} session
 * @param {string} transcript
 * @param {string} [transcriptName] */
export function toldOf(name, session, transcript, transcriptName = "the transcript") {
  return exchanges(name, linesOf(session), new Transcript(transcriptName, transcript));
}

/** The words of the first line that answers.
 * @param {Exchange} exchange */
export function wordsOf(exchange) { return exchange.answer.length ? exchange.answer[0].split(" ") : []; }

/** The slot that a line is about, if it names one or LOAD made it; else null.
 * @param {Exchange} exchange */
export function slotOf(exchange) {
  const {line, answer, reason} = exchange;
  return line.kind === "LOAD" && answer.length && !reason ? number(wordsOf(exchange)[1]) : slotNamed(line);
}

/** The turns of a RUN line, each as a TICK of its slot with the number of the line.
 * @param {Exchange} exchange
 * @returns {Exchange[]} */
export function turnsOf(exchange) {
  return exchange.answer.map((answer, index) => {
    const words = ["TICK", answer.split(" ")[1], exchange.line.words[2]];
    const line = {...exchange.line, text: words.join(" "), words, kind: "TICK"};
    return {line, answer: [answer], reason: "", at: exchange.at + index};
  });
}

/** The lines of a session, with the turns of each RUN line in its place.
 * @param {Exchange[]} told */
export function unrolled(told) {
  return told.flatMap(one => one.line.kind === "RUN" && !one.reason ? turnsOf(one) : [one]);
}

/** The runs that answer a TICK line: how many ticks, and their letter.
 * @param {Exchange} exchange
 * @returns {[number, string][]} */
export function runsOf(exchange) {
  const words = wordsOf(exchange), asked = exchange.line.words;
  const runs = words.slice(2).map(run => /** @type {[number, string]} */ ([number(run.slice(0, -1)), run.slice(-1)]));
  const sum = runs.reduce((total, [count]) => total + count, 0);
  if (number(words[1]) !== number(asked[1]) || sum !== number(asked[2]) || runs.some(([, letter]) => !"*.w-".includes(letter))) {
    throw new Wrong("'" + words.join(" ") + "' does not answer '" + asked.join(" ") + "'");
  }
  return runs;
}

/** What a P line says: how far a job is inside a call. `left`: the steps of unwinding that would bring it to user mode; `a` and `b`: the words
 * at the pointer and the count of SIOT, or `a` that at the argument of SLEEP; `held`: what a MOVING job holds.
 * @param {string[]} words */
export function peekOf(words) {
  return {slot: number(words[1]), state: words[2], call: words[3], left: number(words[4]), a: words[5], b: words[6], held: words[7]};
}

const STATE_WORDS = ["user", "job", "superior", "console", "run", "pc", "pending1", "pending2", "mask1", "mask2", "defer1", "defer2",
                     "symbol", "past"];

/** An S line: each register by its name, and in version 2 the symbol and how far the PC is past it.
 * @param {string[]} words
 * @returns {Record<string, string>} */
export function stateOf(words) {
  if (![14, 16].includes(words.length)) throw new Wrong("the transcript's answer is too short");
  return Object.fromEntries(words.slice(2).map((word, at) => [STATE_WORDS[at], word]));
}
