// For tools/terminal-check: the checks of what is typed at the console and at the operator's prompt.

import {readFileSync} from "node:fs";

import {PROMPT, RESTS, expect, quoted} from "./terminal_checking.js";

/** @typedef {import("./terminal_checking.js").Check} Check */

const PATIENCE = 300;                    // seconds

/** Typed text comes back, in a session of each version.
 * @param {Check} check */
export async function text_comes_back(check) {
  for (const name of ["echo.asm", "echo.its"]) {
    const person = check.sit([check.example(name)]), at = await check.press(person, "hello", await person.wait("stops the job"));
    await check.press(person, " there", at);
    await check.stop(person);
    await check.obey(person, "CONT 0");
    await check.leave(person);
    expect(check.typed().endsWith("hello there"), "other keys are kept: " + quoted(check.typed()));
  }
}

/** Control-Z in the middle of a SIOT, EXAM, go, and the line is complete.
 * @param {Check} check */
export async function interrupted_call(check) {
  const person = check.sit([check.example("tour-run.asm")]);
  await person.wait("stops the job");
  await person.waitStatus("WAITING in SIOT, 1 left", 0);
  person.type("a");
  await person.waitStatus("WAITING in SIOT, 3 left", 0);        // the job has the byte
  await check.stop(person);
  expect(person.text().includes("It goes on at 106 (LOOP+2): .CALL 155"), "it is not said where the job goes on: " + quoted(person.text()));
  let at = person.text().length;
  await check.obey(person, "EXAM 0 1 2", "E 0 000001 350700001000 000000000002");
  await person.wait("a byte pointer at byte 1 of 1000", at);
  at = await check.go(person);
  person.type("bc");
  await person.wait("abc", at);
  await check.stop(person);
  await check.leave(person);
  expect(check.session().includes("STOP 0") && check.session().includes("CONT 0"), "STOP and CONT are not kept");
}

/** Lines that are refused change nothing, and it is said what is wrong with them.
 * @param {Check} check */
export async function wrong_lines(check) {
  const person = check.sit([check.example("echo.asm")]);
  await check.press(person, "x", await person.wait("stops the job"));
  await check.stop(person);
  for (const [line, said] of [
    ["EXAM 0 9 1", "refused as SYNTAX: the digit 9"], ["STATE 7", "refused as NOJOB: there is no job in slot 7"],
    ["EXAM 0 400000 1", "refused as NOPAGE"], ["WHAT", "no line begins with WHAT"], ["GO 100", "GO closes the block"],
    ["TYPE 11 101", "refused as NOCONS"], ["exam 0 3 1", "E 0 000003 000000000170"], ["", "T 0 1"], ["; a remark", ""],
    ["CLOCK \u2026", "a byte that is no ASCII"]]) await check.obey(person, line, said);
  await check.press(person, "yz", await check.go(person));
  await check.stop(person);
  await check.leave(person);
  expect(check.session().includes("EXAM 0 3 1") && !check.session().includes("STATE 7"), "the wrong lines are kept");
}

/** History, help, save, a block, another slot, and quit by Control-D.
 * @param {Check} check */
export async function at_the_prompt(check) {
  const person = check.sit([]);
  await person.wait(PROMPT);
  for (const [line, said] of [
    ["go", "There is no job yet"], ["help", "gives the job one tick"], ["help exam", "EXAM s a n"], ["LOAD U J 3", "J 0"], ["100/ 254000000100", ""],
    ["STATE 0", "the block of LOAD is open"], ["go", "end it by GO first"], ["SYM HERE 100", ""], ["GO 100", "starts at 100"],
    ["STATE 0", "PC 100 (HERE)"], ["\x1b[A", "PC 100 (HERE)"], ["slot 5", "There is no job in slot 5"], ["slot 0", "The terminal is console 3"],
    ["save " + check.folder + "/saved.its", "has the session so far"], ["", "JRST 100"]]) await check.obey(person, line, said);
  person.type("\x04");
  await check.left(person, 0);
  expect(check.session().filter(line => line === "STATE 0").length === 2, "the history gives no line");
  expect(readFileSync(check.folder + "/saved.out").length > 0, "nothing was saved");
}

/** Symbols for numbers, the slot at which one sits, and a step to the next star.
 * @param {Check} check */
export async function symbols(check) {
  const person = check.sit([check.example("tour-run.asm")]);
  await person.wait("stops the job");
  await person.waitStatus("WAITING in SIOT, 1 left", 0);
  await check.stop(person);
  for (const [line, said] of [
    ["exam 0 loop+1 1", "   = EXAM 0 105 1\r\nE 0 000105"], ["exam loop 1", "   = EXAM 0 104 1\r\nE 0 000104"], ["state", "   = STATE 0\r\nS 0"],
    ["peek 0", "peek 0\r\nP 0 USER"], ["tick 1", "   = TICK 0 1\r\nT 0 1"], ["exam lop 1", "the job has no symbol LOP; is it LOOP?"],
    ["exam loop 9", "the digit 9"], ["exam lo\t 1", "   = EXAM 0 104 1"], ["ex\tloop 1", "   = EXAM 0 104 1"]]) await check.obey(person, line, said);
  for (const [line, said] of [
    ["step", "T 0 4. 1w"], ["type 0 141", "Y 0 0"], ["step", "T 0 1*\r\nP 0 MOVING"], ["step", "T 0 1. 1w"], ["step", "T 0 1w"]]) {
    await check.obey(person, line, said);
  }
  await check.leave(person);
}

/** A job that is stopped by a fatal bit, and one that runs without an end.
 * @param {Check} check */
export async function stopped_by_itself(check) {
  let person = check.sit([check.example("first.asm")]);
  await person.wait(PROMPT);
  expect(person.text().includes("has no console") && person.text().includes("stopped by"), "it is not said that the job stopped");
  await check.leave(person);
  const loop = check.file("loop.asm", "        JOB U LOOP 0\n        LOC 100\nSTART:  JRST START\n        GO START\n");
  person = check.sit(["--bound", "5000", loop]);
  await person.waitGlass(23, "goes on after a key");
  await check.stop(person);
  await check.leave(person);
}

/** Another key stops the job; keys that were typed ahead are lines of the prompt, and a paste is not cut.
 * @param {Check} check */
export async function interrupt_key(check) {
  const person = check.sit(["--interrupt", "^]", check.example("echo.asm")]);
  let at = await person.wait("Control-] stops the job");
  person.type("\x1a");
  at = await person.wait("^Z", at);
  person.type("0123456789".repeat(10));
  await person.wait("0123456789".repeat(10), at);
  person.type("\x1dexam 0 3 1\r");
  await person.wait("E 0 000003 000000000071", at);
  await check.leave(person);
}

/** The programs to sit at do what their texts say.
 * @param {Check} check */
export async function programs(check) {
  /** @type {[string, [string, string][]][]} */
  const all = [["edit.asm", [["abx\x7fc", "c"], ["\r", "\r\ncba\r\n"], ["level\r", "level\r\n"]]],
               ["calc.asm", [["12+7*2=", "12+7*2\r\n42\r\n"], ["3-7\r", "3-7\r\n-4\r\n"], ["7/0=", "7/0?\r\n"], ["100/7=", "100/7\r\n11\r\n"],
                             ["9", "9?\r\n"]]]];
  for (const [name, dialogue] of all) {
    const person = check.sit(["--plain", check.example(name)]);
    let at = await person.wait("stops the job");
    for (const [keys, wanted] of dialogue) {
      person.type(keys);
      at = await person.wait(wanted, at);
    }
    await check.stop(person);
    await check.leave(person);
  }
}

/** The clock prints while somebody types, and goes on printing what was typed.
 * @param {Check} check */
export async function ticker(check) {
  const person = check.sit(["--plain", "--clock", check.example("ticker.asm")]);
  let at = await person.wait("0:00 ");
  person.type("tick");
  at = await person.wait("tick", at);
  at = await person.wait(" tick", at);                         // the alarm has come
  person.type("ing");
  at = await person.wait("ing", at);
  await person.wait(" ticking", at);
  await check.stop(person);
  await check.leave(person);
  expect(check.session().some(line => line.startsWith("CLOCK")), "the clock does not follow real time");
}

/** The debugger starts, stops and examines its inferior, which counts seconds of real time.
 * @param {Check} check */
export async function debugger_(check) {
  const person = check.sit(["--plain", "--clock", check.example("debug.asm")]);
  let at = await person.wait("\r\n*");
  person.type("G");
  at = await person.wait("\r\n*", at);
  const until = Date.now() + 1000 * PATIENCE;
  for (let counted = 0; counted < 2;) {
    person.type("200/");
    const start = await person.wait("200/ ", at);
    at = await person.wait("\r\n*", start);
    counted = parseInt(person.text().slice(start, start + 12), 8);
    expect(Date.now() < until, "the inferior does not count");
  }
  for (const [keys, wanted] of [
    ["S", "S\r\n*"], ["P", "P 0100000001"], ["", " 1\r\n*"], ["201/", "201/ 77777"], ["x", "x?\r\n*"], ["777777/", "777777/?\r\n*"],
    ["K", "K\r\n*"], ["200/", "200/ 000000000000\r\n*"]]) {
    person.type(keys);
    at = await person.wait(wanted, at);
  }
  await check.stop(person);
  await check.leave(person);
}

/** The status line follows the size of the window, and is left out if there is no room.
 * @param {Check} check */
export async function window_(check) {
  let person = check.sit([check.example("echo.asm")]);
  await person.wait("stops the job");
  const line = await person.waitGlass(23, "slot 0 U E | WAITING in .IOT, 1 left | console 0 free | clock 0 | " + RESTS);
  await person.waitStatus(RESTS, 0);
  expect(person.glass.reverse[23].slice(0, 79).every(Boolean), "the status line is not in reverse: " + quoted(line));
  person.resize(40, 10);
  await person.waitGlass(9, "slot 0 U E | WAITING in .IOT");
  let at = person.text().length;
  person.type("\r\n".repeat(12) + "end");
  at = await person.wait("end", at);
  await person.waitStatus("WAITING in .IOT", person.bytesUntil(at));
  const rows = person.glass.lines().flatMap((row, place) => row.includes("slot 0 U E") ? [place] : []);
  expect(rows.join() === "9", "the status line moves with the text: " + quoted(person.glass.lines()));
  await check.stop(person);
  await check.leave(person);
  expect(!person.glass.lines()[9].includes("slot 0"), "the status line is left on the screen");
  for (const [columns, rows] of [[0, 0], [80, 3], [10, 24]]) {
    person = check.sit([check.example("echo.asm")], {columns, rows});
    at = await person.wait(columns === 10 ? "stops" : "stops the job");
    person.type("seen");
    await person.wait("seen", at);
    await check.stop(person);
    await check.leave(person);
    expect(!person.seen.includes("\x1b[7m"), "a window of " + columns + " columns and " + rows + " rows has a status line");
  }
}

/** Without a status line no command of the terminal is written.
 * @param {Check} check */
export async function plain(check) {
  /** @type {[string[], string][]} */
  const all = [[["--plain"], "xterm"], [[], "dumb"], [[], "none-such"]];
  for (const [words, term] of all) {
    const person = check.sit([...words, check.example("echo.asm")], {term}), at = await person.wait("stops the job");
    person.type("\x1b[31mred\x01");
    await person.wait("$[31mred^A", at);
    await check.stop(person);
    await check.obey(person, "exax\x7fm\x1b[D\x1b[C 0 3 1", "E 0 000003");
    expect(!person.seen.includes("\x1b"), words + ", " + term + ": commands of the terminal: " + quoted(person.seen));
    await check.leave(person);
  }
}
