// A command: sits down at a console: what is typed goes to the job, and what the job puts out is shown at once.

import {mkdtempSync} from "node:fs";
import os from "node:os";
import path from "node:path";
import process from "node:process";

import {keyName, keyOf} from "../lib/keys.js";
import {Kept} from "../lib/node/kept.js";
import {Living, copierOf} from "../lib/node/living.js";
import {HungUp, Screen, Signalled, Signals} from "../lib/node/screen.js";
import {Words, command, say, textOf} from "../lib/node/command.js";
import {TOP, program, run} from "../lib/node/program.js";
import {Operator} from "../lib/prompt.js";
import {Seat} from "../lib/seat.js";
import {atLine, split} from "../lib/session.js";
import {Over, Sitting, startOf, withoutEnd} from "../lib/sitting.js";
import {Wrong, isOctal, octal, value} from "../lib/words.js";

/** @typedef {import("../lib/seat.js").Choices} Choices */
/** @typedef {import("../lib/sitting.js").Start} Start */

const ABOUT = `
Sits down at a console: what is typed goes to the job, and what the job puts out is shown at once.

    tools/terminal sessions/edit.asm
    tools/terminal --clock --keep my.its sessions/ticker.asm

FILE is an assembly text (NAME.asm), which is assembled first, or a session; without it there is no job yet. Control-Z stops the job
and opens the operator's prompt: each line of the session text works there, and is explained. The slot of the job at which one sits may be
left out, and a number may be a symbol of the job or a sum: \`exam LOOP+1 4\`. Return gives the job one tick, and \`step\` all up to the
next * tick; \`go\` goes on, and \`help\` says more.

All that is done is a session, which is kept with its transcript as it grows: it can be run again, explained, verified and
played. Needs a terminal (else the status is 2); uses the proved program, else an unproved one, as ./its does (docs/TERMINAL.md).
`;
const BOUND = 200000;                    // ticks

const WORDS = new Words("terminal", ABOUT, [
  {name: "FILE", about: "an assembly text or a session", optional: true},
  {name: "--slot", takes: "S", about: "sit at the job in slot S, in octal (that of the first LOAD)"},
  {name: "--keep", takes: "NEW.its", about: "keep the session in this new file, its transcript in NEW.out"},
  {name: "--clock", about: "the clock follows real time"},
  {name: "--interrupt", takes: "KEY", about: "the key that stops the job (^Z)", otherwise: "^Z"},
  {name: "--bound", takes: "N", whole: true, otherwise: BOUND,
   about: "so many ticks the jobs have after a key, if they do not wait before (" + BOUND + ", in decimal)"},
  {name: "--plain", about: "no status line"}]);

/** What the words choose.
 * @param {Record<string, *>} words
 * @returns {Choices} */
export function choicesOf(words) {
  const interrupt = keyOf(words.interrupt);
  if (interrupt === null) throw new Wrong("--interrupt " + words.interrupt + ": a key is one character, or ^ and a letter for a control key");
  if (words.bound < 1) throw new Wrong("--bound is 1 or more");
  const slot = words.slot === undefined ? null : isOctal(words.slot) ? value(words.slot) : -1;
  if (slot !== null && (slot < 0 || slot > 0o137)) throw new Wrong("--slot " + words.slot + ": a slot is 0 to 137, in octal");
  return {interrupt, bound: words.bound, hasClock: words.clock, slot};
}

/** The session of an assembly text.
 * @param {string} its the program
 * @param {string} name
 * @param {string} text */
export function assembled(its, name, text) {
  const {status, output} = run([its, "asm"], text);
  if (status === 0) return output;
  const words = output.trim().split(/\s+/).filter(Boolean), at = words.length === 3 ? value(words[1]) : 0, line = split(text)[at - 1];
  throw new Wrong(name + ": " + atLine(at) + " is refused as " + (words.pop() || "nothing") + (line === undefined ? "" : ": " + line.trim()) +
                  ' (docs/ASM.md, "Refusals")');
}

/** The lines that the session begins with, and what is said about these lines.
 * @param {string} its
 * @param {string | undefined} name
 * @param {string} text
 * @returns {[string, string[]]} */
export function sessionOf(its, name, text) {
  if (name === undefined) return ["VERSION 2\n", []];
  if (name.endsWith(".asm")) return [withoutEnd(assembled(its, name, text))[0], []];
  const [lines, hasEnd] = withoutEnd(text);
  return [lines, hasEnd ? ["The session goes on in place of its END."] : []];
}

/** The slot of the first job that LOAD made, and that is still there.
 * @param {Pick<Sitting, "known" | "state">} sitting */
export async function firstSlot(sitting) {
  for (const slot of sitting.known.made) if (await sitting.state(slot)) return slot;
  return null;
}

/** The files that keep the session.
 * @param {string | undefined} name */
function keptIn(name) { return new Kept(name || path.join(mkdtempSync(path.join(os.tmpdir(), "its-")), "session.its")); }

/** Sits until the person leaves.
 * @param {Seat} seat
 * @param {Screen} screen
 * @param {string[]} said */
async function sit(seat, screen, said) {
  const operator = new Operator(seat, editor => screen.line(editor), name => new Kept(name));
  screen.open();
  screen.openStatus();
  for (const one of said) screen.say(one);
  let goesOn = true;
  if (seat.slot === null) {
    const {slot} = seat.choices, where = slot === null ? "" : " in slot " + octal(slot);
    goesOn = await operator.prompt("There is no job" + where + ". help says what can be typed.");
  } else {
    screen.say("The terminal is console " + octal(seat.runner.console) + ". " + keyName(seat.choices.interrupt) +
               " stops the job, and there `help` says more.");
  }
  while (goesOn) goesOn = await operator.prompt(await seat.attend());
}

/** What can be done with the session.
 * @param {{path: string, transcriptPath: string}} kept */
export function left(kept) {
  const its = path.relative(process.cwd(), path.join(TOP, "its")), tools = path.relative(process.cwd(), path.join(TOP, "tools")) || ".";
  const {path: session, transcriptPath: transcript} = kept, start = its.includes("/") ? its : "./" + its;
  return ["The session is kept in " + session + ", its transcript in " + transcript + ".",
          "    " + start + " run < " + session,
          "    cat " + session + " " + transcript + " | " + start + " verify",
          "    " + tools + "/explain " + session + " " + transcript,
          "    " + tools + "/player " + session + " > session.html"].join("\n");
}

/** Sits until the person leaves, a signal comes or the session cannot go on: the status, and what is wrong.
 * The terminal is restored and what is kept is complete, whatever happens.
 * @param {Sitting} sitting
 * @param {Start} start
 * @param {Screen} screen
 * @param {Choices} choices
 * @param {string[]} said
 * @returns {Promise<[number, string]>} */
export async function sat(sitting, start, screen, choices, said) {
  let status = 0, problem = "";
  try {
    await sitting.begin(start);
    const seat = new Seat(sitting, screen, choices), slot = choices.slot === null ? await firstSlot(sitting) : choices.slot;
    await seat.watch(slot !== null && await sitting.state(slot) ? slot : null);
    await sit(seat, screen, said);
  } catch (wrong) {
    if (wrong instanceof HungUp || wrong instanceof Signalled) status = screen.signals.caught ? 128 + screen.signals.caught : 0;
    else if (wrong instanceof Over) problem = wrong.message;
    else throw wrong;
  } finally {
    screen.restore();
    problem = await sitting.end() || problem;
  }
  return [status, problem];
}

/** Sits down, and says at the end what is kept.
 * @param {string[]} given */
export async function main(given) {
  const words = WORDS.values(given), choices = choicesOf(words), text = words.file === undefined ? "" : textOf(words.file);
  if (!process.stdin.isTTY) {
    say("terminal: standard input is no terminal; ./its run takes a session from a file or a pipe");
    return 2;
  }
  const its = program(), copy = copierOf(its), [lines, said] = sessionOf(its, words.file, text);
  const start = await startOf(copy, words.file || "the session", lines), kept = keptIn(words.keep);
  const sitting = new Sitting(new Living(its, copy), kept), screen = new Screen(words.plain, new Signals());
  const [status, problem] = await sat(sitting, start, screen, choices, said);
  try {
    screen.say(left(kept));
  } catch (wrong) {                      // the terminal has hung up
    if (!(wrong instanceof HungUp)) throw wrong;
  }
  if (problem) throw new Wrong(problem);
  return status;
}

command("terminal", main);
