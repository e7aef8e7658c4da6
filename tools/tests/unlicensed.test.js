// What is said of a transcript that the program does not accept: tools/lib/unlicensed.js. And transcripts that do not fit their sessions, and
// the turns of RUN lines, whose number the session does not say: tools/lib/transcript.js.

import assert from "node:assert";
import {test} from "node:test";

import {linesOf, split} from "../lib/session.js";
import {Judge, RULES, SHOWN, countFor, lettersOf, longest, placeOf, runsOfLetters, stepsOf, unlicensed} from "../lib/unlicensed.js";
import {LOOP, engine, looping, textOf, told, toldOfSession} from "./shared.js";

const ask = (kind, input) => engine.call(kind, input);

// What is said of this transcript, by a substitute that knows one job, or by the program.
function saidBy(call, session, transcript) { return unlicensed(call, "S", session, "T", transcript); }

test("Letters", () => {
  const said = saidBy(looping, LOOP + "TICK 0 4\n", "J 0\nT 0 2* 2.\n");
  assert.deepStrictEqual(said, ["T, line 2 (octal 2): NO 2: this is no transcript of S", "it answers line 4 (octal 4) of S: TICK 0 4", "found: 'T 0 2* 2.'",
                                "tick 3 of this line is wrong: found `.`, licensed `*`", "rule: " + RULES["."]]);
  assert.ok(saidBy(looping, LOOP + "TICK 0 4\n", "J 0\nT 0 2* 2*\n").includes("licensed: 'T 0 4*'"));
  assert.ok(saidBy(looping, LOOP + "TICK 0 4\n", "J 0\nT 0 3*\n").includes("licensed: a line 'T 0' with 4 letters; this one has 3"));
});

test("Other lines", () => {
  const said = saidBy(looping, LOOP + "EXAM 0 100 1\n", "J 0\nE 0 000100 000000000000\n");
  assert.deepStrictEqual(said.slice(3), ["licensed, as the program writes it: 'E 0 000100 254000000100'", "rule: " + SHOWN.E]);
  assert.match(saidBy(looping, LOOP, "J 0\nJ 1\n")[2], /no line of the session asks for it/);
  assert.ok(saidBy(looping, LOOP + "TICK 0 1\n", "J 0\n").includes("found: the end"));
});

test("A transcript that is accepted", () => assert.deepStrictEqual(saidBy(looping, LOOP + "TICK 0 4\n", "J 0\nT 0 4*\n"), []));

test("How many ticks show so many steps", () => {
  const judge = new Judge(looping, linesOf(LOOP).slice(0, -1), ["J 0"]);
  assert.deepStrictEqual([0, 3, 0o1001].map(wanted => countFor(judge, split(LOOP), "0", wanted)), [null, 3, null]);
  assert.deepStrictEqual([0, 1, 2].map(wanted => countFor({shows: () => ["T 0 2w 1* 3w"]}, [], "0", wanted)), [1, 3, null]);
});

test("Places", () => {
  const lines = linesOf("VERSION 2\n" + LOOP + "RUN 2 1\nTICK 0 1\nDIR D\nEND\n");
  const transcript = ["J 0", "T 0 1*", "T 0 1*", "T 0 1*", "R 440000000000 1", "F 1 2 3"], kindAt = at => (placeOf(lines, transcript, at).line || {}).kind;
  assert.deepStrictEqual([0, 1, 2, 3, 4, 5, 6].map(kindAt), ["LOAD", "RUN", "RUN", "TICK", "DIR", "DIR", undefined]);
  assert.strictEqual(placeOf(lines, ["J 0", "? 6 RANGE"], 1).line.kind, "TICK");
  assert.deepStrictEqual(["T 0 2* 1.", "T 0", "T 0 8*", "T 0 2x", "E 0 1"].map(lettersOf), ["**.", "", "", "", ""]);
  assert.deepStrictEqual([0, 3, 9].map(most => longest("****", some => some.length <= most)), [0, 3, 4]);
  assert.deepStrictEqual(["T 0 2* 1. 1*", "E 0 1*"].map(stepsOf), [3, 0]);
  assert.strictEqual(runsOfLetters("....*" + "w".repeat(9)), "4. 1* 11w");
});

// What is said of the transcript of an example in which something is changed.
function saidOf(name, old, by) {
  const transcript = textOf("sessions/" + name + ".out");
  assert.ok(transcript.includes(old));
  return saidBy(ask, textOf("sessions/" + name + ".its"), transcript.replace(old, () => by)).join("\n");
}

// An example, what is changed, and what is said.
const CHANGED = [
  ["first", "J 0", "J 0", []],
  ["first", "T 0 2*", "T 0 2-", ["T, line 2 (octal 2): NO 2: this is no transcript of S", "of S: TICK 0 2",
                                 "tick 1 of this line is wrong: found `-`, licensed `*` or `.`",
                                 "`-` is licensed exactly if the slot is empty or its job is stopped"]],
  ["first", "T 0 2*", "T 0 3*", ["licensed: a line 'T 0' with 2 letters; this one has 3"]],
  ["first", "000000000005", "000000000006", ["licensed, as the program writes it: 'E 0 000200 000000000005'"]],
  ["tour-moving", "2* 4. 1*\n", "2* 5.\n", ["licensed, as the program writes it: 'E 0 001000 000000000000'",
                                            "rule: EXAM shows the words that the job has after these steps"]],
  ["first", "E 0 000200 000000000005\n", "", ["found: the end", "licensed, as the program writes it: 'E 0 000200 000000000005'"]],
  ["first", "E 0 000200 000000000005\n", "E 0 000200 000000000005\nJ 1\n", ["no line of the session asks for it"]],
];

for (const [name, old, by, said] of CHANGED) {
  test(name + " with " + JSON.stringify(by) + " for " + JSON.stringify(old), () => {
    const found = saidOf(name, old, by);
    assert.strictEqual(found === "", !said.length);
    for (const one of said) assert.ok(found.includes(one), found);
  });
}

test("A refusal", () => {
  const said = saidBy(ask, "LOAD U J -\nGO 8\nTICK 0 1\n", "J 0\nT 0 1*\n");
  assert.ok(said.includes("it answers line 2 (octal 2) of S: GO 8") && said.includes("licensed, as the program writes it: '? 2 SYNTAX'"), said.join("\n"));
});

test("A session that is cut", () => assert.deepStrictEqual(saidBy(ask, "FILE D A B\n", "? 2 CUT\n"), []));

test("A transcript with carriage returns is judged as it is", () => {
  const said = saidOf("first", "J 0\n", "J 0\r\n");
  for (const one of ["NO 1: this is no transcript of S", "found: 'J 0?'", "it ends with a carriage return"]) assert.ok(said.includes(one), said);
  assert.deepStrictEqual(saidBy(ask, "END\r\n", "? 1 SYNTAX\n"), []);
});

test("A turn of no slot", () => {
  const said = saidBy(ask, "VERSION 2\n" + LOOP + "RUN 1 1\n", "J 0\nT * 1*\n");
  assert.ok(said.includes("licensed: a line 'T 0' with 1 letters of a slot whose job has the turn; this one has 1"), said.join("\n"));
});

// A session, its transcript, and what is said of the first line that does not fit.
const MISFITS = [
  [LOOP, "T 0 1*\n", /the session, line 1 \(octal 1\): the transcript, line 1 \(octal 1\): here is 'T 0 1\*'/],
  [LOOP + "TICK 0 1\n", "J 0\n", /the session, line 4 \(octal 4\): the transcript, line 2 \(octal 2\): here is the end/],
  ["END\n", "J 0\n", /the transcript, line 1 \(octal 1\): nothing in the session asks for this line/],
  [LOOP + "TICK 0 1\n", "J 0\nT 0 2*\n", /the session, line 4 \(octal 4\): 'T 0 2\*' does not answer 'TICK 0 1'/],
  [LOOP + "PEEK 0\n", "J 0\nP 0 USER\n", /the session, line 4 \(octal 4\): the transcript's answer is too short/]];

for (const [session, transcript, said] of MISFITS) {
  test("The transcript " + JSON.stringify(transcript), () => assert.throws(() => toldOfSession(session, transcript), said));
}

// How many turns each RUN line has.
function counts(session, transcript) {
  return told("VERSION 2\n" + session, transcript).filter(({line}) => line.kind === "RUN").map(({answer}) => answer.length);
}

const TURN = "T 0 1*\n";
const TURNS = [
  ["RUN 3 1\nRUN 3 1\n", TURN.repeat(4), [3, 1]], ["RUN 3 1\nTICK 0 1\nRUN 3 1\n", TURN.repeat(3), [2, 0]],
  ["RUN 3 1\nRUN 3 2\nRUN 1 1\n", TURN.repeat(2) + "T 0 2*\n" + TURN, [2, 1, 1]],
  ["RUN 3 1\nTICK 0 1\nPEEK 0\nRUN 3 1\n", TURN + "P 0 USER - 0 - - -\n" + TURN, [0, 1]],
  ["RUN 2 1\nRUN 2 1\nSTATE 0\nRUN 2 1\n", TURN.repeat(3) + "? 4 NOJOB\n", [2, 1]], ["RUN 2 1\nTICK 0 1\n", TURN + "T 0 1-\n", [1]]];

for (const [session, transcript, wanted] of TURNS) {
  test("The first RUN lines have as many turns as may be: " + JSON.stringify(session), () => assert.deepStrictEqual(counts(session, transcript), wanted));
}

for (const [session, transcript] of [["RUN 1 1\n", TURN.repeat(2)], ["RUN 2 1\nTICK 0 1\n", ""], ["RUN 2 1\nEXAM 0 1 1\n", TURN]]) {
  test("Turns that do not fit: " + JSON.stringify(session), () => assert.throws(() => counts(session, transcript), /the transcript, line/));
}

test("Many lines that do not fit: each may have many turns, and one turn is left", () => {
  const begun = process.cpuUsage();
  assert.throws(() => counts("RUN 10 1\n".repeat(3000), TURN.repeat(8 * 3000 + 1)), /nothing in the session asks for this line/);
  assert.throws(() => counts("RUN 10 1\nTICK 0 1\n".repeat(2000) + "RUN 10 1\nEXAM 0 1 1\n", TURN.repeat(12000) + "T 0 2*\n".repeat(9)),
                /but the session asks for a line E/);
  assert.ok(process.cpuUsage(begun).user < 5e6);
});
