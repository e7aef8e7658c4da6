// Shared by the page and the commands: why a transcript is none of a session: which line of the session the first wrong line answers, what was
// found, what is licensed there, and which rule is broken (docs/MACHINE.md, "The transcript"). The program judges; here the question is put
// so that its answers show the place.

import {LINES, atLine, joined, linesOf, split} from "./session.js";
import {shown} from "./told.js";
import {Transcript, takeAnswer} from "./transcript.js";
import {Wrong, isOctal, number, octal, value} from "./words.js";

/** @typedef {import("./session.js").Line} Line */

/** Calls the program: a command and its input give the status and what it writes.
 * @typedef {(words: string[], input: string) => {status: number, output: string}} Call */

const ENDED = /^ *END *(?![^\n])/m;       // a carriage return after END is no part of an END line
const LETTERS = "*.w-";
const TRIES = 64;              // so many TICK lines before the wrong one are given other counts, so that they show as many steps

/** @type {Record<string, string>} */
export const RULES = {
  "*": "`*` is one step of the plain machine, and the job has none here: its call waits",
  ".": "at most 16 `.` come for a job between two steps; then its step has to come, or `w` if its call waits",
  w: "`w` is licensed if the job runs and has no step, because its call waits; here it has one",
  "-": "`-` is licensed exactly if the slot is empty or its job is stopped"};
const OFF = "the slot is empty or its job is stopped here: each tick is `-`";
/** @type {Record<string, string>} */
export const SHOWN = {
  J: "LOAD shows the slot that the job gets, the least free one", Y: "TYPE shows how many bytes were dropped: a console keeps 64",
  D: "DRAIN shows the bytes that the jobs have put out, in their order", E: "EXAM shows the words that the job has after these steps",
  L: "LIST shows the words that the job has after these steps", S: "STATE shows the registers that the job has after these steps",
  P: "PEEK shows a line that begins with P", R: "DIR shows the files after these steps", F: "DIR shows each file",
  W: "SHOW shows the file as it is after these steps", "/": "SHOW shows the words of the file", T: "each tick has one letter",
  "?": "a line that the grammar or the machine refuses is answered by ?, the number of the line and the reason, and ends the session"};

/** A session and a transcript as one input of `verify`: the session up to its END line, which it gets if it has none.
 * @param {string} session
 * @param {string} transcript */
export function verifyInput(session, transcript) {
  const ended = ENDED.exec(session);
  const own = ended ? session.slice(0, ended.index) : session + (session && !session.endsWith("\n") ? "\n" : "");
  return own + "END\n" + transcript;
}

/** A session, the lines of a transcript, and the program that judges. */
export class Judge {
  /** @param {Call} call
   * @param {Line[]} lines of the session, up to its END
   * @param {string[]} transcript */
  constructor(call, lines, transcript) {
    this.call = call;
    this.lines = lines;
    this.transcript = transcript;
    this.session = lines.map(line => line.text);
  }

  /** Whether a transcript of a session, without its END, may begin with these lines.
   * @param {string[]} session
   * @param {string[]} transcript */
  licenses(session, transcript) {
    const [answer, line] = this.call(["verify"], joined([...session, "END", ...transcript])).output.trim().split(" ");
    return answer === "YES" || answer === "NO" && value(line) > transcript.length;
  }

  /** What the program shows of a session.
   * @param {string[]} session */
  shows(session) { return split(this.call(["run"], joined([...session, "END"])).output); }
}

/** The line of a session that a line of a transcript answers (none if the session is over), and the place of the first line of its answer.
 * @typedef {{line: Line | null, first: number}} Place */

/** The line of the session which line `at` (from 0) of a transcript answers. All lines before are licensed.
 * @param {Line[]} lines
 * @param {string[]} transcript
 * @param {number} at
 * @returns {Place} */
export function placeOf(lines, transcript, at) {
  const taken = new Transcript("", transcript);
  for (const line of lines) {
    const first = taken.at;
    if (line.kind === "END" || line.ended) break;
    try {
      if (taken.refusal(line.number)) return {line: first === at ? line : null, first};
      if (line.kind === "RUN") taken.at += taken.turns(line);
      else if (!["", "a/", "/"].includes(line.kind)) takeAnswer(taken, line);
    } catch (problem) {
      if (!(problem instanceof Wrong || problem instanceof TypeError)) throw problem;
      return {line, first};
    }
    const isMore = line.kind === "RUN" && taken.at === at && isTurn(lines.slice(line.number), transcript[at]);
    if (taken.at > at || isMore) return {line, first};
  }
  return {line: null, first: at};
}

/** Whether a line after the turns of a RUN line may be one more turn: a T line that no later line asks for.
 * @param {Line[]} rest
 * @param {string | undefined} found */
function isTurn(rest, found) {
  const following = rest.find(line => (LINES[line.kind] || [0, ""])[1] || line.kind === "RUN");
  return found !== undefined && found.startsWith("T ") && (!following || !["TICK", "RUN"].includes(following.kind));
}

/** The letters of a T line one by one; nothing if it is none.
 * @param {string} text */
export function lettersOf(text) {
  const runs = text.split(" ").slice(2);
  if (runs.some(run => !run || LETTERS.includes(run.slice(-1)) && !isOctal(run.slice(0, -1)))) return "";
  return runs.filter(run => LETTERS.includes(run.slice(-1))).map(run => run.slice(-1).repeat(value(run.slice(0, -1)))).join("");
}

/** Letters as the runs of a T line.
 * @param {string} letters */
export function runsOfLetters(letters) {
  return (letters.match(/(.)\1*/g) || []).map(run => octal(run.length) + run[0]).join(" ");
}

/** What is said of a T line that is not licensed.
 * @param {Judge} judge
 * @param {Line} line
 * @param {number} first
 * @param {number} at */
function wrongLetter(judge, line, first, at) {
  const found = judge.transcript[at], own = found.split(" "), wanted = number(line.words[2]);
  const slot = line.kind === "RUN" ? value(own[1]) : number(line.words[1]), letters = lettersOf(found), whole = "T " + own[1] + " ";
  if (own[0] !== "T" || own[1] !== octal(slot) || letters.length !== wanted) {
    return ["licensed: a line 'T " + octal(slot) + "' with " + octal(wanted) + " letters" +
            (line.kind === "TICK" ? "" : " of a slot whose job has the turn") + "; this one has " + octal(letters.length),
            "rule: " + SHOWN.T];
  }
  const before = [...judge.session.slice(0, line.number - 1), ...judge.transcript.slice(first, at).map(one =>
    ["TICK", one.split(" ")[1], line.words[2]].join(" "))];
  const fits = (/** @type {string} */ some) => !some || judge.licenses(
    [...before, "TICK " + octal(slot) + " " + octal(some.length)], [...judge.transcript.slice(0, at), "T " + octal(slot) + " " + runsOfLetters(some)]);
  const good = longest(letters, fits);
  if (good === letters.length && found !== whole + runsOfLetters(letters)) {
    return ["licensed: '" + whole + runsOfLetters(letters) + "'", "rule: equal letters in a row are one run"];
  }
  if (good === letters.length) {
    return ["rule: the turns of a RUN go round the circle of the slots whose jobs run, and another slot has this one"];
  }
  const may = [...LETTERS].filter(letter => fits(letters.slice(0, good) + letter));
  return ["tick " + octal(good + 1) + " of this line is wrong: found `" + letters[good] + "`, licensed " +
          may.map(one => "`" + one + "`").join(" or "), "rule: " + (may.join("") === "-" ? OFF : RULES[letters[good]])];
}

/** How many of the first letters fit. If so many fit, then fewer do.
 * @param {string} letters
 * @param {(some: string) => boolean} fits */
export function longest(letters, fits) {
  let low = 0, high = letters.length;
  while (low < high) {
    const middle = (low + high + 1) >> 1;
    if (fits(letters.slice(0, middle))) low = middle; else high = middle - 1;
  }
  return low;
}

/** How many steps a T line shows; of any other line, none.
 * @param {string | undefined} line */
export function stepsOf(line) { return line !== undefined && line.startsWith("T ") ? lettersOf(line).split("*").length - 1 : 0; }

/** A line that is licensed at this place of the transcript: the one that the program writes after as many steps.
 * @param {Judge} judge
 * @param {number} at */
function licensedLine(judge, at) {
  const session = [...judge.session];
  for (let tries = 0; tries < TRIES; tries += 1) {
    const written = judge.shows(session), end = Math.min(at, written.length);
    let here = 0;
    while (here < end && stepsOf(written[here]) === stepsOf(judge.transcript[here])) here += 1;
    if (here >= end) {
      const line = written[at];
      return line && judge.licenses(judge.session, [...judge.transcript.slice(0, at), line]) ? line : null;
    }
    const place = placeOf(linesOf(joined(session)), written, here);
    if (!place.line || place.line.kind !== "TICK") return null;
    const slot = place.line.words[1], count = countFor(judge, session.slice(0, place.line.number - 1), slot, stepsOf(judge.transcript[here]));
    if (count === null) return null;
    session[place.line.number - 1] = "TICK " + slot + " " + octal(count);
  }
  return null;
}

/** How many ticks of a slot show so many steps; 1 at least, which is the least of a TICK.
 * @param {Judge} judge
 * @param {string[]} before
 * @param {string} slot
 * @param {number} wanted */
export function countFor(judge, before, slot, wanted) {
  const written = judge.shows([...before, "TICK " + slot + " 1000"]), letters = written.length ? lettersOf(written[written.length - 1]) : "";
  if (!wanted) return letters && letters[0] !== "*" ? 1 : null;
  let count = 0;
  for (let at = 0; at < letters.length; at += 1) {
    if (letters[at] === "*") count += 1;
    if (count === wanted) return at + 1;
  }
  return null;
}

/** What is said of line `at` (from 0) of a transcript. The names are those of the session and of the transcript.
 * @param {Judge} judge
 * @param {[string, string]} names
 * @param {number} at */
function toldOf(judge, names, at) {
  const place = placeOf(judge.lines, judge.transcript, at), own = judge.transcript[at];
  const head = names[1] + ", " + atLine(at + 1) + ": NO " + octal(at + 1) + ": this is no transcript of " + names[0];
  const found = "found: " + (own === undefined ? "the end" : "'" + shown(own) + "'");
  if (own !== undefined && own.endsWith("\r")) {
    return [head, found, "it ends with a carriage return: the lines of a transcript end with LF alone; tr -d '\\r' < FILE > NEW converts it"];
  }
  if (!place.line) {
    return [head, found, "no line of the session asks for it: the session is over before",
            "rule: each line asks for the lines that answer it, and no more"];
  }
  const right = licensedLine(judge, at), refused = right && right.startsWith("? ") ? value(right.split(" ")[1]) : 0;
  const line = judge.lines[refused - 1] || place.line;
  const out = [head, "it answers " + atLine(line.number) + " of " + names[0] + ": " + line.text.trim(), found];
  if (!refused && ["TICK", "RUN"].includes(line.kind) && own !== undefined && own.startsWith("T ")) {
    return [...out, ...wrongLetter(judge, line, place.first, at)];
  }
  const letter = right ? right[0] : (LINES[line.kind] || [0, ""])[1];
  if (right) out.push("licensed, as the program writes it: '" + right + "'");
  else if (letter) out.push("licensed: a line that begins with " + letter);
  return SHOWN[letter] ? [...out, "rule: " + SHOWN[letter]] : out;
}

/** Why this is no transcript of the session; nothing if it is one.
 * @param {Call} call
 * @param {string} name
 * @param {string} session
 * @param {string} transcriptName
 * @param {string} text
 * @returns {string[]} */
export function unlicensed(call, name, session, transcriptName, text) {
  const ended = ENDED.exec(session);
  if (!ended && text.endsWith(" CUT\n")) return [];          // `verify` needs an END line, and with one the session would not be cut
  const [answer, line] = call(["verify"], verifyInput(session, text)).output.trim().split(" ");
  if (answer !== "NO") return [];
  const own = ended ? session.slice(0, ended.index) : session;
  return toldOf(new Judge(call, linesOf(own).slice(0, -1), split(text)), [name, transcriptName], number(line) - 1);
}
