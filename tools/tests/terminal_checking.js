// For tools/terminal-check: what a check works with: the program, a folder of its own, and somebody at a terminal.

import {readFileSync, rmSync, writeFileSync} from "node:fs";
import path from "node:path";

import {TOP, run} from "../lib/node/program.js";
import {split} from "../lib/session.js";
import {Missing, Person} from "./terminal_person.js";

export const TOOL = path.join(TOP, "tools", "terminal");
export const PROMPT = "its> ";
export const RESTS = "^Z stops";         // the status line says it while all jobs wait

/** Something has to hold.
 * @param {boolean} holds
 * @param {string} said */
export function expect(holds, said) { if (!holds) throw new Missing(said); }

/** The lines on the terminal of a tool that has ended, but not the one that says that the program is an unproved build.
 * @param {Person} person */
export function linesSaid(person) { return split(person.text()).filter(line => !line.startsWith("its: unproved build")); }

/** A text as it is shown in a complaint.
 * @param {*} text */
export function quoted(text) { return JSON.stringify(text); }

/** What a check works with. */
export class Check {
  /** @param {string} program
   * @param {string} folder */
  constructor(program, folder) {
    this.program = program;
    this.folder = folder;
    this.kept = path.join(folder, "kept.its");
    /** @type {Person[]} */
    this.people = [];
  }

  /** Somebody at a terminal.
   * @param {string[]} command
   * @param {{columns?: number, rows?: number, term?: string}} [window] */
  person(command, window) {
    const person = new Person(command, window);
    this.people.push(person);
    return person;
  }

  /** Somebody sits down. What was kept before is gone.
   * @param {string[]} words
   * @param {{columns?: number, rows?: number, term?: string}} [window] */
  sit(words, window) {
    for (const name of ["kept.its", "kept.out"]) rmSync(path.join(this.folder, name), {force: true});
    return this.person([TOOL, "--keep", this.kept, ...words], window);
  }

  /** A file of sessions/.
   * @param {string} name */
  example(name) { return path.join(TOP, "sessions", name); }

  /** A file of the check.
   * @param {string} name
   * @param {string} text */
  file(name, text) {
    writeFileSync(path.join(this.folder, name), text);
    return path.join(this.folder, name);
  }

  /** The lines that are kept. */
  session() { return split(readFileSync(this.kept, "latin1")); }

  /** The keys that are kept, by the TYPE lines. */
  typed() {
    const keys = this.session().filter(line => line.startsWith("TYPE")).flatMap(line => line.split(" ").slice(2));
    return keys.map(word => String.fromCharCode(parseInt(word, 8))).join("");
  }

  /** Somebody sits at a job that repeats keys, has typed a word, and sees it.
   * @param {string[]} words */
  async keep(...words) {
    const person = this.sit([...words, this.example("echo.asm")]);
    await this.press(person, "kept", await person.wait("stops the job"));
    return person;
  }

  /** Presses keys, and waits until the jobs have written them and wait again: the place after them.
   * @param {Person} person
   * @param {string} keys
   * @param {number} since */
  async press(person, keys, since) {
    const before = person.seen.length;
    person.type(keys);
    const at = await person.wait(keys, since);
    await person.waitStatus(RESTS, Math.max(before, person.bytesUntil(at)));
    return at;
  }

  /** Types a line at the prompt, and waits for what is said then and for the next prompt: the place after it.
   * @param {Person} person
   * @param {string} line
   * @param {string} [said] */
  async obey(person, line, said = "") {
    const at = person.text().length;
    person.type(line + "\r");
    return person.wait(PROMPT, await person.wait(said, at));
  }

  /** Lets the job go on, and waits until the terminal is its console again: the place in what came.
   * @param {Person} person */
  async go(person) {
    const at = person.text().length, before = person.seen.length;
    person.type("go\r");
    await person.waitStatus(RESTS, before);
    return at;
  }

  /** Stops the job by Control-Z, and waits for the prompt: the place after it.
   * @param {Person} person */
  async stop(person) {
    const at = person.text().length;
    person.type("\x1a");
    return person.wait(PROMPT, at);
  }

  /** Leaves at the prompt; what is kept has to be right.
   * @param {Person} person
   * @param {number} [status] */
  async leave(person, status = 0) {
    person.type("quit\r");
    await this.left(person, status);
  }

  /** The tool has ended. What is kept runs to the same transcript, and that is verified; a transcript that is not whole is the beginning of
   * that one.
   * @param {Person} person
   * @param {number} status
   * @param {boolean} [isWhole] */
  async left(person, status, isWhole = true) {
    const ended = await person.ended();
    expect(ended === status, "the status is " + ended + " and not " + status + ": " + quoted(person.text().slice(-200)));
    const session = readFileSync(this.kept, "latin1"), transcript = readFileSync(this.kept.slice(0, -4) + ".out", "latin1");
    const done = run([this.program, "run"], session), same = isWhole ? done.output === transcript : done.output.startsWith(transcript);
    expect(done.status === 0 && same, "what is kept does not run to the transcript that is kept: status " + done.status + ", " +
           quoted(done.output.slice(-200)) + " and not " + quoted(transcript.slice(-200)));
    if (!isWhole) return;
    const {output} = run([this.program, "verify"], session + transcript);
    expect(output.startsWith("YES "), "verify says " + quoted(output) + " of what is kept");
  }

  /** The check is over: a person who still sits leaves. */
  async end() { for (const person of this.people) await person.leave(); }
}
