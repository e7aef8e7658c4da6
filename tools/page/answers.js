// The page: what its worker answers. The session that is stepped through is kept in the worker. The page has texts of any characters, and the
// program has bytes: they are made from each other here alone.

import {systemOf} from "../lib/beginning.js";
import {decoded, encoded} from "../lib/bytes.js";
import {MOST_MOMENTS, momentCount, momentsOfLine} from "../lib/counting.js";
import {CLOSES, joined, linesOf, numbered, split} from "../lib/session.js";
import {toldLines} from "../lib/told.js";
import {unlicensed, verifyInput} from "../lib/unlicensed.js";
import {graded, taskFrom, verdictLine} from "../lib/grading.js";
import {Wrong, value} from "../lib/words.js";
import {madeOf} from "./assembling.js";
import {Disturbed} from "./disturbed.js";
import {Engine, Trapped} from "../lib/engine.js";
import {goOn} from "./going.js";
import {Looks} from "./looks.js";
import {drawn, inParts, runSession, wholePicture} from "./running.js";
import {linesUntil} from "./saving.js";
import {placedSources, sourcesOf} from "./sources.js";

/** @typedef {import("../lib/told.js").Told} Told */
/** @typedef {import("../lib/transcript.js").Exchange} Exchange */
/** @typedef {import("./running.js").Spot} Spot */
/** @typedef {import("../lib/grading.js").Verdict} Verdict */

const AROUND = 3;                        // so many lines before and after a wrong one are shown
const ENOUGH = 100;                      // milliseconds of disturbed runs that are answered at once

/** What is said of lines, for the page.
 * @param {Told[]} told */
function forPage(told) { return told.map(one => ({...one, text: decoded(one.text)})); }

/** The lines of a transcript around one, which is marked, with their numbers.
 * @param {string} transcript
 * @param {number} line */
function linesAround(transcript, line) {
  const from = Math.max(0, line - 1 - AROUND), lines = split(transcript);
  if (lines.length < line) lines.push("(the end)");
  return lines.slice(from, line + AROUND).map((one, at) => (from + at + 1 === line ? "> " : "  ") + numbered(from + at + 1) + "  " + one);
}

/** The answers of a worker by what it is asked. */
export class Answers {
  /** @param {(said: string) => void} progress */
  constructor(progress) {
    this.progress = progress;
    /** @type {*} */
    this.engine = null;
    this.session = {name: "", text: "", told: /** @type {Exchange[]} */ ([]), spots: /** @type {Spot[]} */ ([])};
    /** @type {Looks | null} */
    this.moments = null;
    /** @type {Disturbed | null} */
    this.disturbed = null;
    /** @type {Iterator<Verdict>} */
    this.verdicts = [][Symbol.iterator]();
  }

  /** Takes the module.
   * @param {{bytes: BufferSource}} given */
  open({bytes}) {
    this.engine = new Engine(bytes);
    return {};
  }

  /** Runs a session; of one with too many moments, no more than this is done.
   * @param {{name: string, text: string, texts: string[]}} given */
  run({name, text, texts}) {
    const begun = performance.now(), session = encoded(text);
    this.moments = this.disturbed = null;
    this.progress("the program runs it");
    const run = runSession(this.engine, name, session), moments = momentCount(run.told.map(({line}) => line));
    const ran = performance.now() - begun;
    this.progress("its lines are explained");
    const told = forPage(toldLines(name, run.told, copy => this.engine.run(copy).transcript));
    this.progress("it is drawn");
    const {picture, spots} = drawn(name, run.told);
    const sources = placedSources(sourcesOf(this.engine, run.lines, texts.map(encoded)), run.told);
    this.session = {name, text: session, told: run.told, spots};
    return {status: run.status, transcript: run.transcript, parts: inParts(told), last: told[told.length - 1], listed: told.length,
            count: run.lines.length - 1, picture, sources, unread: run.unread, moments, most: MOST_MOMENTS, ran,
            took: performance.now() - begun};
  }

  /** The moments of the session that was run last, as JSON. */
  steps() {
    const {name, told, spots} = this.session;
    this.moments = new Looks((/** @type {string} */ text) => this.engine.run(text), name, told, this.progress);
    return {json: JSON.stringify({outline: this.moments.outline(), spots})};
  }

  /** What holds at a moment.
   * @param {{at: number, watch: number[]}} given */
  view({at, watch}) {
    if (!this.moments) throw new Wrong("this session has no moments");
    return this.moments.view(at, watch);
  }

  /** The system at a moment, as the state part that the program saves.
   * @param {{at: number}} given */
  save({at}) {
    if (!this.moments) throw new Wrong("this session has no moments");
    return {text: this.engine.answer("save", joined(linesUntil(this.session.told, this.moments.moments, at)))};
  }

  /** The first lines of a session, so many that one can step through them.
   * @param {{text: string}} given */
  beginning({text}) {
    const lines = linesOf(encoded(text)).filter(line => !line.ended);
    let end = 0, count = 1;
    lines.some((line, at) => {
      count += momentsOfLine(line);
      if (count > MOST_MOMENTS || line.kind === "END") return true;
      if (line.block ? line.kind === CLOSES[line.block] : !CLOSES[line.kind]) end = at + 1;
      return false;
    });
    return {part: decoded(joined([...lines.slice(0, end).map(line => line.text), "END"]))};
  }

  /** The whole picture of the session that was run last. */
  picture() { return {svg: wholePicture(this.session.name, this.session.told)}; }

  /** Begins to disturb the session that was run last: how many ticks there are.
   * @param {{way: string, settle: number}} given */
  disturb({way, settle}) {
    this.disturbed = new Disturbed(this.engine, this.session.name, this.session.text, way, settle);
    return {ticks: this.disturbed.work.count, left: this.disturbed.left};
  }

  /** The next disturbed runs, and how many are left. */
  disturbMore() {
    if (!this.disturbed) throw new Wrong("this session is not disturbed");
    return {cells: this.disturbed.some(ENOUGH), left: this.disturbed.left};
  }

  /** What the lines of another session mean; the one that is stepped through stays.
   * @param {{name: string, text: string}} given */
  look({name, text}) {
    return {told: toldLines(name, runSession(this.engine, name, encoded(text)).told, copy => this.engine.run(copy).transcript)};
  }

  /** A command of the program.
   * @param {{words: string[], input: string}} given */
  command({words, input}) { return this.engine.call(words.map(encoded), encoded(input)); }

  /** What verify answers; of a line that is not licensed, what is found there, what would be licensed, and by which rule.
   * @param {{session: string, transcript: string}} given */
  verify(given) {
    const session = encoded(given.session), transcript = encoded(given.transcript);
    const [answer, word, reason] = this.engine.call(["verify"], verifyInput(session, transcript)).output.trim().split(" ");
    const call = (/** @type {string[]} */ words, /** @type {string} */ input) => this.engine.call(words, input);
    const why = answer === "NO" ? unlicensed(call, "the session", session, "the transcript", transcript) : [];
    const around = (/** @type {string} */ text) => answer === "NO" ? linesAround(text, value(word)) : [];
    return {answer, line: value(word || ""), reason, why: why.map(decoded), found: around(transcript).map(decoded),
            beside: answer === "NO" ? around(this.engine.run(session).transcript) : []};
  }

  /** Begins to grade a text by the public checks of a task.
   * @param {{checks: [string, string][], texts: [string, string][], text: string}} given */
  grade({checks, texts, text}) {
    this.verdicts = graded((kind, input) => this.engine.answer(kind, input), taskFrom({checks, hidden: [], texts}), encoded(text));
    return {};
  }

  /** What the next check finds, with its line; nothing if there is none. */
  gradeMore() {
    const {value: verdict} = this.verdicts.next();
    return {verdict: verdict ? {...verdict, session: decoded(verdict.session)} : null, line: verdict ? decoded(verdictLine(verdict)) : ""};
  }

  /** What a text of the assembler, or of MIDAS, is made into.
   * @param {{name: string, text: string, files: Record<string, string>}} given */
  assemble({name, text, files}) { return madeOf(this.engine, name, encoded(text), files); }

  /** Goes on with a session at a terminal.
   * @param {{text: string, lines: string[], console: string}} given */
  terminal({text, lines, console}) { return goOn(this.engine, encoded(text), lines, console, this.progress); }

  /** The lines with which a system of assembly texts begins.
   * @param {{texts: [string, string][]}} given */
  system({texts}) { return {text: systemOf(texts, (_, text) => this.engine.answer("asm", text))}; }

  /** A round of a system: what the session so far and these lines show, after so many characters of the transcript.
   * @param {{text: string, lines: string[], told: number}} given */
  round({text, lines, told}) { return {answers: split(this.engine.run(text + joined(lines)).transcript.slice(told))}; }
}

/** A worker: it answers one question after the other, and says what it is doing meanwhile.
 * @param {*} scope */
export function serve(scope) {
  let asked = 0;
  /** @type {*} */
  const answers = new Answers(words => scope.postMessage({id: asked, progress: words}));
  scope.onmessage = (/** @type {MessageEvent} */ {data}) => {
    asked = data.id;
    try {
      scope.postMessage({id: data.id, answer: answers[data.ask](data)});
    } catch (problem) {
      const {message} = /** @type {Error} */ (problem);
      scope.postMessage({id: data.id, wrong: message, isTrap: problem instanceof Trapped, isOwn: problem instanceof Wrong});
    }
  };
}
