// The operator's prompt: its words, lines of the session, symbols, the slot that is left out, and steps.

import assert from "node:assert";
import {test} from "node:test";

import {GO, Operator, QUIT, STAY} from "../lib/prompt.js";
import {Known} from "../lib/readings.js";
import {Places, linesOf} from "../lib/session.js";
import {alone} from "../lib/sitting.js";
import {Wrong} from "../lib/words.js";
import {Texts} from "./terminal_substitute.js";

/** A prompt, what is said there, what is tried and what is ticked. */
function prompted() {
  const said = [], tried = [], ticked = [], watched = [];
  const sitting = {block: [], version: 2, known: new Known(), places: new Places(), text: "CLOCK 1\n", transcript: ["T 0 1*", "D 0"], found: null,
                   state: async () => sitting.found, look: async () => ["T 0 3. 1* 1000w"],
                   attempt: async text => (tried.push(text), alone(linesOf(text)[0], sitting.answer || [], sitting.reason || "")),
                   ticks: async texts => (ticked.push(...texts), [[], []])};
  const seat = {sitting, slot: null, runner: {console: 3}, screen: {say: one => said.push(one), show() {}}, showStopped: async () => {},
                nextInstruction: async () => "It goes on at 100: JRST 100", watch: async slot => { watched.push(slot); seat.slot = slot; }};
  const operator = new Operator(seat, async () => null, () => new Texts());
  return {said, tried, ticked, watched, sitting, seat, operator};
}

test("words of the prompt", async () => {
  const {operator, said} = prompted();
  for (const [text, done] of [["quit", QUIT], ["END", QUIT], ["end", QUIT], ["go", STAY], ["", STAY], ["help", STAY], ["slot 140", STAY], ["save", STAY]]) {
    assert.strictEqual(await operator.obey(text), done, text);
  }
  assert.deepStrictEqual(said.slice(0, 2), new Array(2).fill("There is no job yet: make one by LOAD, or sit down at one by slot S."));
  assert.deepStrictEqual(said.slice(-2), ["It is written slot S, and a slot is 0 to 137, in octal", "It is written save FILE"]);
});

test("help has the lines of the version", async () => {
  const {operator, said, sitting} = prompted();
  await operator.obey("help exam");
  assert.strictEqual(said.pop(), "EXAM s a n");
  for (const [version, has] of [[2, true], [1, false]]) {
    said.length = 0;
    sitting.version = version;
    await operator.obey("help");
    assert.strictEqual(said.join("\n").includes("RUN n q"), has);
    assert.ok(said[0].startsWith("Return"));
  }
});

test("go lets a stopped job go on", async () => {
  const {operator, said, sitting, seat, tried} = prompted();
  seat.slot = 0o12;
  for (const [state, lines] of [[null, 0], [{run: "RUN"}, 0], [{run: "STOP"}, 1]]) {
    sitting.found = state;
    assert.strictEqual(await operator.obey("go"), GO);
    assert.strictEqual(tried.length, lines);
  }
  assert.deepStrictEqual(tried, ["CONT 12"]);
  sitting.block = ["LOAD U J 0"];
  sitting.places.block = "LOAD";
  assert.strictEqual(await operator.obey("go"), STAY);
  assert.deepStrictEqual(said, ["The block of LOAD is open: end it by GO first."]);
  assert.strictEqual(await operator.obey("quit"), QUIT);
  assert.deepStrictEqual(said.slice(1), ["The block of LOAD is not closed, and so it is no part of the session."]);
});

test("a line that is refused has a caret", async () => {
  const {operator, said, sitting, tried} = prompted();
  sitting.reason = "SYNTAX";
  await operator.obey("clock 8");
  assert.deepStrictEqual(tried, ["CLOCK 8"]);
  assert.deepStrictEqual(said, [" ".repeat(11) + "^", "refused as SYNTAX: the digit 8: numbers are octal, and have the digits 0 to 7"]);
  await operator.obey("; a note");
  assert.strictEqual(tried.pop(), "; a note");
});

test("a line that is performed is explained, and the person sits at the first job", async () => {
  const {operator, said, sitting, tried, watched} = prompted();
  sitting.answer = ["J 5"];
  await operator.obey("load u j 3");
  assert.deepStrictEqual([tried.pop(), said.splice(0)], ["LOAD U J 3", ["J 5", "    a job U J is made in slot 5, with console 3"]]);
  sitting.answer = [];
  await operator.obey("go 100");
  assert.deepStrictEqual(watched, [5]);
  await operator.obey("go 100");
  assert.deepStrictEqual(watched, [5]);
});

test("the slot may be left out, and numbers may be symbols", async () => {
  const {operator, said, sitting, seat, tried} = prompted();
  sitting.known.symbolsOf(5).add("LOOP", 0o104);
  sitting.known.symbolsOf(0).add("OTHER", 0o200);
  seat.slot = 5;
  for (const [text, plain] of [
    ["state", "STATE 5"], ["STATE 0", ""], ["exam 100 2", "EXAM 5 100 2"], ["exam 0 100 2", ""], ["exam loop+1 2", "EXAM 5 105 2"],
    ["exam 0 other 2", "EXAM 0 200 2"], ["deposit loop 7", "DEPOSIT 5 104 7"], ["tick 20", "TICK 5 20"], ["tick 0 20", ""],
    ["int 2 0", "INT 5 2 0"], ["peek", "PEEK 5"], ["stop", "STOP 5"], ["list loop-1 1", "LIST 5 103 1"], ["run 1 loop", "RUN 1 104"],
    ["exam 5 loop", "EXAM 5 5 104"], ["exam 100", ""], ["dir d", ""]]) {
    said.length = 0;
    sitting.reason = "NOJOB";
    await operator.obey(text);
    assert.strictEqual(tried.pop(), plain || text.toUpperCase(), text);
    assert.strictEqual(said[0].startsWith("   = "), plain !== "", text + ": " + said);
  }
  said.length = 0;
  await operator.obey("exam lop 1");
  assert.deepStrictEqual([said, tried], [["the session, line 1 (octal 1): the job has no symbol LOP; is it LOOP?"], []]);
  sitting.block = ["LOAD U J 0"];
  sitting.known.slot = 0;
  await operator.obey("state");
  await operator.obey("go other");
  assert.deepStrictEqual(tried, ["STATE", "GO 200"]);
});

test("one tick, and all up to a star", async () => {
  const {operator, said, sitting, seat, tried, ticked} = prompted();
  seat.slot = 0;
  await operator.obey("");
  assert.strictEqual(said.pop(), "There is no job in slot 0.");
  sitting.found = {run: "STOP"};
  sitting.reason = "NOJOB";
  await operator.obey("");
  assert.deepStrictEqual([ticked.pop(), tried, said], ["TICK 0 1", ["CONT 0", "PEEK 0"], ["T 0 1*", "The job is gone."]]);
  for (const [looked, line] of [["T 0 3. 1* 774.", "TICK 0 4"], ["T 0 1* 777.", "TICK 0 1"], ["T 0 2. 776w", "TICK 0 3"], ["T 0 1000-", "TICK 0 1"],
                                ["T 0 1000.", "TICK 0 1000"]]) {
    sitting.look = async lines => (assert.deepStrictEqual(lines, ["TICK 0 1000"]), [looked]);
    await operator.obey("step");
    assert.strictEqual(ticked.pop(), line);
  }
  sitting.reason = "";
  sitting.answer = ["P 0 USER - 0 - - -"];
  said.length = 0;
  await operator.obey("");
  assert.deepStrictEqual(said, ["T 0 1*", "P 0 USER - 0 - - -", "    in user mode, in no call", "    It goes on at 100: JRST 100"]);
});

test("the session is saved, or it is said why not", async () => {
  const {operator, said} = prompted(), kept = Object.assign(new Texts(), {path: "a.its", transcriptPath: "a.out"});
  operator.keep = () => kept;
  await operator.obey("save a.its");
  assert.deepStrictEqual([kept.texts, said.pop()], [["CLOCK 1\nEND\n", "T 0 1*\nD 0\n"], "a.its has the session so far, a.out its transcript."]);
  operator.keep = name => { throw new Wrong(name + ": File exists"); };
  await operator.obey("save a.its");
  assert.strictEqual(said.pop(), "a.its: File exists");
});

test("another slot", async () => {
  const {operator, said, sitting, watched} = prompted();
  for (const [text, wanted] of [["slot 5", "There is no job in slot 5."], ["slot", "It is written slot S"], ["slot 9", "It is written slot S"]]) {
    await operator.obey(text);
    assert.ok(said.pop().includes(wanted));
  }
  sitting.version = 1;
  await operator.obey("slot 100");
  assert.strictEqual(said.pop(), "It is written slot S, and a slot is 0 to 77, in octal");
  sitting.found = {run: "RUN"};
  await operator.obey("slot 5");
  assert.deepStrictEqual([said.pop(), watched], ["The terminal is console 3. It goes on at 100: JRST 100", [5]]);
});

test("words are completed", () => {
  const {operator, sitting, seat} = prompted();
  assert.deepStrictEqual(operator.completed("", "st"), ["STATE ", "STOP ", "step "]);
  assert.deepStrictEqual(operator.completed("", "qu"), ["quit "]);
  seat.slot = 0;
  for (const name of ["LOOP", "LIST1", "A"]) sitting.known.symbolsOf(0).add(name, 0o100);
  assert.deepStrictEqual(operator.completed("exam ", "l"), ["LIST1", "LOOP"]);
  assert.deepStrictEqual(operator.completed("exam ", ""), []);
});

test("the prompt stays until the jobs go on or the session ends", async () => {
  const {operator, said} = prompted(), lines = ["help exam", "go", null];
  operator.edited = async () => lines.shift();
  operator.seat.slot = 0;
  operator.sitting.found = {run: "RUN"};
  assert.strictEqual(await operator.prompt("Here."), true);
  assert.deepStrictEqual(said, ["Here.", "Numbers are octal; counts of ticks, steps, lines, words and bytes are decimal.", "EXAM s a n"]);
  assert.strictEqual(await operator.prompt("Again."), false);
  assert.deepStrictEqual(said.slice(3), ["Again."]);                // this is said once
});
