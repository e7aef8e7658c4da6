// For tools/terminal-check: the checks of how tools/terminal begins and ends, and of what it costs while nothing happens.

import {spawnSync} from "node:child_process";
import {cpSync, readFileSync, writeFileSync} from "node:fs";
import os from "node:os";
import path from "node:path";
import process from "node:process";

import {TOP} from "../lib/node/program.js";
import {PROMPT, TOOL, expect, linesSaid, quoted} from "./terminal_checking.js";

/** @typedef {import("./terminal_checking.js").Check} Check */

const PATIENCE = 300;                    // seconds

/** Without a terminal there is a message and status 2; if no program can be made, another one and status 1.
 * @param {Check} check */
export async function no_terminal(check) {
  const done = spawnSync(TOOL, [check.example("echo.asm")], {stdio: ["ignore", "pipe", "pipe"]}), said = done.stderr.toString();
  expect(done.status === 2 && said.split("\n").length === 2 && said.includes("no terminal"), "no terminal: " + quoted(said));
  const place = path.join(check.folder, "elsewhere", "tools");
  cpSync(path.join(TOP, "tools"), place, {recursive: true});
  writeFileSync(path.join(place, "unproved"), "#!/bin/sh\nexit 125\n");
  const person = check.person([path.join(place, "terminal"), check.example("echo.asm")]);
  expect(await person.ended() === 1 && person.text().includes("no unproved one could be made") && linesSaid(person).length === 1,
         "no program: " + quoted(person.text()));
}

/** Words and files that are wrong give one line and status 1, and the terminal is as it was.
 * @param {Check} check */
export async function wrong_words(check) {
  check.file("wrong.asm", "JOB U J 0\nMOVE 1,NONE\nGO 0\n");
  check.file("wrong.its", "LOAD U J 0\nSTATE 0\n");
  const there = check.file("there.its", "END\n");
  /** @type {[string[], string][]} */
  const all = [
    [["wrong.asm"], "line 2 (octal 2) is refused as UNDEF: MOVE 1,NONE"], [["wrong.its"], "line 2 (octal 2) is refused as SYNTAX"],
    [["none.its"], "No such file"], [["--keep", there], "File exists"], [["--keep", "kept.out"], "overwritten"],
    [["--interrupt", "ctrl"], "a key is one character"], [["--slot", "9"], "a slot is"], [["--bound", "0"], "--bound"],
    [["--nothing"], "--help says more"], [["--keep", "no/where.its"], "No such file"]];
  for (const [some, said] of all) {
    const words = some.map(word => word.includes(".") && !word.startsWith("/") ? path.join(check.folder, word) : word);
    const person = check.person([TOOL, ...words]), before = await person.attributes();
    expect(await person.ended() === 1 && person.text().includes(said) && linesSaid(person).length === 1, words + ": " + quoted(person.text()));
    expect(quoted(await person.attributes()) === quoted(before), words + ": the terminal is changed");
  }
}

/** Signals, a hangup, the end of the input and a program that dies: the terminal is restored, and no key is lost that was shown.
 * @param {Check} check */
export async function ends(check) {
  for (const name of ["SIGTERM", "SIGINT", "SIGHUP", "SIGQUIT"]) {
    const number = os.constants.signals[name];
    let person = await check.keep();
    process.kill(person.process, name);
    await check.left(person, 128 + number);
    expect(check.typed() === "kept", name + ": keys are lost");
    expect(await person.isRestored(), name + ": the terminal is not restored");
    person = check.sit([check.example("echo.asm")]);
    await person.wait("stops the job");
    await check.stop(person);
    let at = person.text().length;
    person.type("exam 0");
    at = await person.wait("exam 0", at);
    await person.waitAsleep();
    process.kill(person.process, name);
    if (name === "SIGINT") {
      await person.wait(PROMPT, at);
      await check.leave(person);
    } else await check.left(person, 128 + number);
    expect(await person.isRestored(), name + " at the prompt: the terminal is not restored");
  }
  await quit_key(check);
  await hangup(check);
  await death(check);
}

/** Control-C gives up a line, and Control-\ ends the tool as its signal does.
 * @param {Check} check */
async function quit_key(check) {
  const person = await check.keep();
  const at = await check.stop(person);
  person.type("exam 0\x03");
  await person.wait("exam 0\r\n" + PROMPT, at);
  person.type("\x1c");
  await check.left(person, 128 + os.constants.signals.SIGQUIT);
}

/** The terminal is gone, at the console and at the prompt.
 * @param {Check} check */
async function hangup(check) {
  for (const isAtPrompt of [false, true]) {
    const person = await check.keep();
    if (isAtPrompt) await check.stop(person);
    person.hangUp();
    const status = await person.ended();
    expect([0, 128 + os.constants.signals.SIGHUP].includes(status), "a hangup ends it with status " + status);
    await check.left(person, status);
    expect(check.typed() === "kept", "keys are lost by a hangup");
  }
}

/** The program dies; and the tool is killed, which nothing can see to: what is kept has the keys all the same.
 * @param {Check} check */
async function death(check) {
  let person = await check.keep();
  const children = readFileSync("/proc/" + person.process + "/task/" + person.process + "/children", "latin1").split(" ");
  process.kill(Number(children[0]), "SIGKILL");
  person.type("x");
  await check.left(person, 1, false);
  expect(person.text().includes("the program ended with status -9"), "it is not said that the program died");
  expect(await person.isRestored(), "the terminal is not restored as the program dies");
  person = await check.keep();
  process.kill(person.process, "SIGKILL");
  expect(await person.ended() === -os.constants.signals.SIGKILL && check.typed() === "kept", "a tool that is killed loses keys");
}

/** A job that waits costs no time of the processor, with real time and without: the tool sleeps a whole second.
 * @param {Check} check */
export async function idle(check) {
  for (const words of [[], ["--clock"]]) {
    const person = check.sit([...words, check.example("echo.asm")]);
    await person.wait("stops the job");
    const until = Date.now() + 1000 * PATIENCE, now = () => wakings(person.process) + check.session().join("\n");
    for (;;) {
      const before = now();
      await new Promise(resolve => { setTimeout(resolve, 1000); });
      if (now() === before) break;
      expect(Date.now() < until, words + ": an idle job costs time");
    }
    await check.stop(person);
    await check.leave(person);
  }
}

/** How often a process has gone to sleep, and how often it was put to sleep.
 * @param {number} number of the process */
function wakings(number) {
  return readFileSync("/proc/" + number + "/status", "latin1").split("\n").filter(line => line.includes("ctxt_switches")).join(" ");
}

/** The picture in docs/ is of a real run.
 * @param {Check} _check */
export async function picture(_check) {
  const done = spawnSync(path.join(TOP, "tools", "terminal-picture"), [], {stdio: ["ignore", "pipe", "inherit"]});
  const isSame = done.status === 0 && done.stdout.toString() === readFileSync(path.join(TOP, "docs", "terminal.svg"), "utf8");
  expect(isSame, "docs/terminal.svg is not what tools/terminal-picture makes");
}
