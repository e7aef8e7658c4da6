// A session is saved after each of its ticks, and goes on from the checkpoint: tools/lib/saving.js, and disturb --save.

import assert from "node:assert";
import {test} from "node:test";

import {cutAt, ticksOf} from "../lib/cutting.js";
import {joined, split} from "../lib/session.js";
import {fullMachine} from "./full_machine.js";
import {LOOP, calledWith, engine, put, shownBy, textOf, told} from "./shared.js";

const save = (session, words = [], program = undefined) => calledWith("disturb", ["--save", ...words, put("a.its", session)], program);

test("A session is cut at each of its ticks, and a RUN line stays one as far as it can", () => {
  const session = "VERSION 2\n" + LOOP + "RUN 2 3\nTICK 0 2\nEXAM 0 100 1\n", lines = split(session);
  const cuts = [...ticksOf(told(session, shownBy(lines)))].map(tick => cutAt(lines, tick).map(part => part.filter(line => /RUN|TICK/.test(line)).join(", ")));
  assert.deepStrictEqual(cuts, [["RUN 1 1", "TICK 0 2, RUN 1 3, TICK 0 2"], ["RUN 1 2", "TICK 0 1, RUN 1 3, TICK 0 2"], ["RUN 1 3", "RUN 1 3, TICK 0 2"],
                                ["RUN 1 3, RUN 1 1", "TICK 0 2, TICK 0 2"], ["RUN 1 3, RUN 1 2", "TICK 0 1, TICK 0 2"], ["RUN 1 3, RUN 1 3", "TICK 0 2"],
                                ["RUN 2 3, TICK 0 1", "TICK 0 1"], ["RUN 2 3, TICK 0 2", ""]]);
});

/** The tables of the crate test_hostile: a row is a session whose end is the same however it is disturbed: each call, and each device. */
const TABLES = [...textOf("crates/test_hostile/src/sessions.rt").matchAll(/pub static ([A-Z]+): &str =\s+"([^"]*)"/g)];
const SESSIONS = TABLES.flatMap(([, table, rows]) => rows.split("#").map((row, at) => [table + " " + (at + 1), row.split("=").slice(0, 3).join("")]));
/** How far the jobs are at the cuts. */
const met = new Set();

/** What the table of a session says, with how far its jobs are.
 * @param {{status: number, written: string, said: string}} ended */
function tableOf({status, written, said}) {
  assert.deepStrictEqual([status, said], [0, ""], written);
  assert.match(written, /^in decimal: .* of them saved: [0-9]+ the same(, [0-9]+ late)?, 0 not$/m);
  for (const row of split(written)) met.add(row.slice(36, 56).trim());
  return split(written);
}

for (const name of ["tour-moving", "tour-parent", "link", "close", "alarm", "forbidden", "run", "links/19-sixteen-links", "links/30-removed-with-a-word-in-hand", "secret/12-console-bytes"]) {
  test("Saved at each tick: " + name, async () => { tableOf(await calledWith("disturb", ["--save", "sessions/" + name + ".its"])); });
}

for (const [name, session] of SESSIONS) {
  test("Saved at each tick: " + name, async () => {
    assert.deepStrictEqual(tableOf(await save(session)).filter(row => row.includes("late: ")), []);
  });
}

test("Each call is met in each of its states", () => {
  assert.deepStrictEqual(TABLES.map(([, table]) => table), ["CONSOLES", "FILES", "LINKS", "INFERIORS"]);
  const calls = ["HANG", "SLEEP", "DISMIS", "USRVAR", "OPEN", "CLOSE", "SIOT", "FINISH", "LISTEN", "TTYLND", "ACCESS", "FILLEN", "DELETE", "RENAME", "USRMEM", "UCLOSE",
                 "CORBLK", "REALT", ".IOT", "LOGOUT"];
  const wanted = calls.flatMap(call => ["PARSED", "ASKED", "HOLDING", ...(["HANG", "LOGOUT"].includes(call) ? [] : ["ENDING"])].map(state => call + " " + state));
  const waits = ["HANG", "SLEEP", ".IOT", "SIOT", "FINISH", "LISTEN"].map(call => call + " WAITING");
  assert.deepStrictEqual([...wanted, ...waits, "SIOT MOVING", "ENTERED", "USER"].filter(frame => !met.has(frame)), []);
});

/** The program, whose `save` leaves out the lines of these kinds. */
const without = kinds => (words, input) => {
  const {status, output} = engine.call(words, input);
  return {status, output: words[0] === "save" ? output.replace(new RegExp("^(" + kinds + ")[ /].*\\n", "gm"), "") : output};
};

// Kinds of lines, a session in which they are missed, and what the table says.
const MISSED = [
  ["IN", "tour-moving", /no: what the session shows of the rest is not licensed after the checkpoint: NO /], ["OUT", "tour-moving", /no: /], ["CLOCK", "sleep", /no: /],
  ["HOLD", "exercises/5-holder", /no: /], ["TTY", "tour-moving", /no: /], ["ALARM", "alarm", /no: /], ["UNDER|USR", "tour-parent", /no: /], ["TURN", "run", /no: /], ["SENT", "link", /no: /],
  ["RO", "core", /no: /], ["001000", "tour-moving", /no: /], ["DSK|DRAFT", "close", /no: /]];

for (const [kinds, name, says] of MISSED) {
  test("Without " + kinds + " lines", async () => {
    const ended = await calledWith("disturb", ["--save", "sessions/" + name + ".its"], without(kinds));
    assert.deepStrictEqual([ended.status, says.test(ended.written)], [1, true], ended.written);
  });
}

test("A checkpoint of the checkpoint that is another one", async () => {
  const {status, written} = await save(LOOP + "TICK 0 2\n", [], (words, input) => {
    const {status: own, output} = engine.call(words, input);
    return {status: own, output: words[0] === "save" ? output.replace("READY", "; " + input.length + "\nREADY") : output};
  });
  assert.deepStrictEqual([status, /no: the checkpoint of the checkpoint is another one/.test(written)], [1, true]);
});

test("A line that comes too early for a job that is late", async () => {
  const {status, written} = await calledWith("disturb", ["--save", "sessions/core.its"]);
  assert.strictEqual(status, 0);
  assert.match(written, /late: line 'EXAM 0 2000 1' comes too early and is refused as NOPAGE/);
  assert.match(written, /of them saved: [0-9]+ the same, [0-9]+ late, 0 not$/m);
});

test("A slot without a job, and the ticks of a part", async () => {
  const {written} = await save("TICK 0 5\n");
  assert.match(written, /^ +1 +1 \(1\) +- +no job +0 +yes$/m);
  assert.match(written, /5 ticks, 3 of them as the tick before, 2 of them saved: 2 the same, 0 not/);
  assert.match((await save(LOOP + "TICK 0 20\n", ["--from", "3", "--to", "5"])).written, /16 ticks, 3 of them saved: 3 the same, 0 not/);
});

test("The checkpoints that are stored are those that the program writes", () => {
  const part = name => split(textOf("sessions/" + name + ".its")).filter(line => !line.startsWith(";")).join("\n").split("\nREADY")[0].split("\n");
  const saved = name => split(engine.answer("save", textOf("sessions/" + name + ".its"))), own = saved("hand");
  assert.deepStrictEqual([...part("saved"), "READY"], own);
  // Exercise 6: the system of 6-to.its with this job, and this job twice; slot and console are changed
  const job = (slot, name) => own.slice(2, 11).map(line => line.replace("JOB 0 U EDIT 0", "JOB " + slot + " U " + name + " " + slot));
  const last = saved("exercises/6-to");
  assert.deepStrictEqual(part("exercises/6-move"), [...last.slice(0, -2), ...job(1, "EDIT"), "TTY 1 1 0", "IN 1 142", "HOLD 0 0", "HOLD 1 1"]);
  assert.deepStrictEqual(part("exercises/6-two"), [...own.slice(0, 2), ...job(0, "EDIT"), ...job(1, "EDIT2"), "TTY 0 1 0", "TTY 1 1 0", "IN 0 142", "HOLD 0 0", "HOLD 1 1"]);
});

test("The largest system is saved as the text that it was made of", () => {
  const text = joined([...fullMachine()]), {status, output} = engine.call(["save"], text);
  assert.deepStrictEqual([status, split(output).length, output === text], [0, 131523, true]);
});
