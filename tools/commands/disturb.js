// A command: disturbs a session after each of its ticks, and says whether that makes a difference.

import {Disturbance, SETTLE, WAYS, runsOn} from "../lib/disturbing.js";
import {Words, command, textOf, write} from "../lib/node/command.js";
import {program, runEach, runLater, runOne} from "../lib/node/program.js";
import {Cut} from "../lib/saving.js";
import {numberOf} from "../lib/told.js";
import {Wrong, isOctal, octal, pendingNames, value} from "../lib/words.js";

/** @typedef {import("../lib/cutting.js").Tick} Tick */
/** @typedef {import("../lib/disturbing.js").Met} Met */

const ABOUT = `
Disturbs a session after each of its ticks, and says whether that makes a difference.

    tools/disturb sessions/echo.its

The session is run as it is. Then it is run once for each tick after which the slot that was ticked has a job that runs: there
PEEK shows how far the job is inside a call, and then the job is disturbed, by EXAM, by STATE, or by STOP and CONT. What is
compared with the undisturbed run is what the lines EXAM, LIST, DIR and SHOW after the last TICK line show, and all bytes that the
DRAIN lines took, console by console.

A job that was disturbed executes its call again, and so is some ticks late. Therefore each slot gets more ticks after the last
TICK line of the session, also in the undisturbed run (--settle). If a line between two ticks comes too early for a job that
is late, the runs may differ: give the job more ticks there.

CONT clears fatal pending bits. So if the job has some, such as BRK after a .BREAK, INT sets them again after CONT, if the run would
differ without; the table says that.

In the table the ticks are counted in octal, as in the picture that tools/timeline draws; lines are numbered in decimal, as an editor does, with
the octal number in parentheses; the last line is in decimal.

A job that waits is the same after each \`w\` of a line. So of many \`w\` in a row the first one and the last one are disturbed; with --each all are.

With --save the session is saved at each of its ticks, also those after which no job runs, and the rest goes on from what \`save\` wrote, the
checkpoint. \`verify\` has to accept what the uncut session shows of the rest; the rest has to show, letter by letter, what it shows if STATE disturbs each
job at the cut; and the checkpoint of the checkpoint has to be the same text. Else the row says "no". It says "late" if only what is
compared as above differs: a line comes too early for a job that executes its call again.

At most 4096 ticks are disturbed. Of a longer session --from, --to and --slot say which ones. The status is 0 if no row says "no", else 1.
`;

const WORDS = new Words("disturb", ABOUT, [
  {name: "--by", choices: Object.keys(WAYS), otherwise: "exam", about: "how the job is disturbed (exam)"},
  {name: "--save", about: "save the session at each of its ticks, and go on from the checkpoint"},
  {name: "--settle", takes: "N", whole: true, otherwise: SETTLE, about: "how many ticks each slot gets after the last TICK line (" + SETTLE + ", in decimal)"},
  {name: "--from", takes: "N", otherwise: "1", about: "the first tick that is disturbed, in octal"},
  {name: "--to", takes: "N", otherwise: "7777777777", about: "the last one, in octal"},
  {name: "--each", about: "disturb also after each w of a job that waits"},
  {name: "--slot", takes: "S", otherwise: null, about: "only ticks of this slot, in octal"},
  {name: "SESSION", about: "a session, or - for standard input"}]);

const HEAD = ["tick (octal)", "        line", "letter", "the job is met in   ", "steps unwound", "same"];
const LATE = "If a run differs, the job may have been some ticks late when another job or the next line of the session came. Give " +
  "it more ticks there, and see whether it still differs.";

/** Those ticks after which the job runs: after the last tick of a line another run shows it.
 * @param {Disturbance} work */
async function runningTicks(work) {
  const last = work.ticks.filter(tick => !tick.next), over = new Set();
  let at = 0;
  for await (const {output} of runEach(last.map(tick => work.probe(tick)))) {
    if (!runsOn(output)) over.add(last[at].number);
    at += 1;
  }
  return work.ticks.filter(tick => !over.has(tick.number));
}

/** The sessions that are disturbed after these ticks, made when somebody asks for each.
 * @param {Disturbance} work
 * @param {Tick[]} ticks */
function* disturbed(work, ticks) {
  for (const tick of ticks) yield work.session(tick);
}

/** A disturbed run. One that differs as CONT cleared fatal bits is made again with these bits set again.
 * @param {Disturbance} work
 * @param {Tick} tick
 * @param {string} transcript */
function metBy(work, tick, transcript) {
  const met = work.met(tick, transcript);
  return met.differs && met.fatal ? work.met(tick, runOne(work.session(tick, met.fatal), work.name), met.fatal) : met;
}

/** What the program answers.
 * @param {string} name
 * @param {string} kind
 * @param {string} input */
async function answered(name, kind, input) {
  const {output, problem} = await runLater([program(), kind], input);
  if (problem) throw new Wrong(name + ": " + problem);
  return output;
}

/** A session that is saved after a tick, and goes on from the checkpoint.
 * @param {Disturbance} work
 * @param {Tick} tick */
async function savedAt({name, lines}, tick) {
  const cut = new Cut(name, lines, tick), answer = (/** @type {string} */ kind, /** @type {string} */ input) => answered(name, kind, input);
  const [looked, saved] = await Promise.all([answer("run", cut.look()), answer("save", cut.begun())]);
  const [again, uncut] = await Promise.all([answer("save", saved), answer("run", cut.uncut())]);
  const [after, disturbed] = await Promise.all([answer("run", cut.after(saved)), answer("run", cut.disturbed(saved))]);
  const verdict = await answer("verify", cut.judged(saved, looked, uncut)), wrote = {looked, saved, again, uncut, after, disturbed, verdict};
  const fault = cut.fault(wrote);
  return {...cut.met(looked), fault, late: fault ? "" : cut.late(wrote)};
}

/** Saves the session after each of its ticks, and reports the result.
 * @param {Disturbance} work */
async function saveEach(work) {
  const rows = [], counts = {yes: 0, late: 0, no: 0};
  for (const tick of work.ticks) {
    const {frame, left, fault, late} = await savedAt(work, tick);
    counts[fault ? "no" : late ? "late" : "yes"] += 1;
    rows.push(cells(tick, frame, left, fault ? "no: " + fault : late ? "late: " + late : "yes"));
  }
  const late = counts.late ? ", " + counts.late + " late" : "";
  write([HEAD.join("  "), ...rows, "", totals(work, "saved", rows.length) + counts.yes + " the same" + late + ", " + counts.no + " not"].join("\n") + "\n");
  return counts.no ? 1 : 0;
}

/** The cells of a row.
 * @param {Tick} tick
 * @param {string} frame
 * @param {number} left
 * @param {string} same */
function cells(tick, frame, left, same) {
  return [octal(tick.number).padStart(HEAD[0].length), numberOf(tick.line), tick.letter.padEnd(6), frame.padEnd(20), String(left).padStart(13), same].join("  ");
}

/** A run, as a row of the table.
 * @param {Met} one */
function row({tick, frame, left, differs, fatal, again}) {
  const same = differs ? "no: " + differs : "yes";
  const more = again ? ", with " + pendingNames(octal(fatal)).join(" ") + " set again after CONT, which clears it" : "";
  return cells(tick, frame, left, same + more);
}

/** The beginning of the last line: how many ticks there are, and after how many of them something was done.
 * @param {Disturbance} work
 * @param {string} done
 * @param {number} count */
function totals({count: all, skipped}, done, count) {
  return "in decimal: " + all + (all === 1 ? " tick, " : " ticks, ") + (skipped ? skipped + " of them as the tick before, " : "") + count +
    " of them " + done + ": ";
}

/** A number of --from, --to and --slot.
 * @param {string} word */
function octalOf(word) {
  if (!isOctal(word)) throw new Wrong(word + " is no octal number, as --from, --to and --slot take");
  return value(word);
}

/** Runs the session, disturbs it and reports the result.
 * @param {string[]} given */
export async function main(given) {
  const {session: name, by, save, settle, from, to, slot, each} = WORDS.values(given);
  if (settle < 0 || settle > 2048) throw new Wrong("--settle is 0 to 2048");
  const range = {first: octalOf(from), last: octalOf(to), slot: slot === null ? null : octalOf(slot)}, session = textOf(name);
  const work = new Disturbance(name, session, runOne(session, name), by, settle, range, each, save);
  if (save) return saveEach(work);
  work.take(runOne(work.plain, name));
  const ticks = await runningTicks(work), rows = [];
  let differ = 0;
  for await (const {output, problem} of runEach(disturbed(work, ticks))) {
    if (problem) throw new Wrong(name + ": " + problem);
    const met = metBy(work, ticks[rows.length], output);
    rows.push(row(met));
    if (met.differs) differ += 1;
  }
  write([HEAD.join("  "), ...rows, ...(differ ? ["", LATE] : []), "", totals(work, "disturbed by " + by.toUpperCase(), rows.length) + (rows.length - differ) + " the same, " + differ + " not"].join("\n") + "\n");
  return differ ? 1 : 0;
}

command("disturb", main);
