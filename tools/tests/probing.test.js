// What a line did that its transcript does not show: tools/lib/probing.js.

import assert from "node:assert";
import {test} from "node:test";

import {toldLines} from "../lib/told.js";
import {answer, textOf, told} from "./shared.js";

const ask = session => answer("run", session);

// What is said of the lines of a kind.
function saidOf(session, kind) {
  const found = told(session);
  return toldLines("the session", found, ask).filter((_, at) => found[at].line.kind === kind).map(({means}) => means);
}

test("CLOCK: whose alarm was due, and out of which call its job is taken", () => {
  const said = saidOf(textOf("sessions/alarm.its"), "CLOCK").map(means => means.slice(1));
  assert.deepStrictEqual(said, [[], ["the alarm of slot 0 was due: its bit ALR is set; its job is taken out of SLEEP (WAITING)"], [],
                                ["the alarm of slot 0 was due: its bit ALR is set; its job is taken out of HANG (WAITING)"],
                                ["the alarm of slot 0 was due: its bit ALR is set"]]);
});

// OPEN of a file that is not there, and .BREAK after it; the last argument word of its block, and what is said.
const OPEN = "LOAD U J 0\n100/ 201040000005 43000000120 045700000000 254000000103\n120/ 400000000000 576045560000 001000000001 000000000150 LAST\n" +
  "150/ 446353000000 0\nGO 100\nTICK 0 100\nSTATE 0\n";
const FAILED = [["400000000151", ["the call at 101 failed: 6, no such file"]], ["000000000151 403000000160", []], ["402000000151", ["the call at 101 failed: 3, too many arguments"]]];

for (const [last, wanted] of FAILED) {
  test("A call that failed, with the last argument " + last, () => assert.deepStrictEqual(saidOf(OPEN.replace("LAST", last), "STATE")[0].slice(3), wanted));
}

test("A job that stops at a .BREAK after no call that failed", () => {
  assert.deepStrictEqual(saidOf(OPEN.replace("LAST", "400000000151").replace("43000000120", "254000000102"), "STATE")[0].slice(3), []);
  assert.deepStrictEqual(saidOf(OPEN.replace("LAST", "400000000151").replace("TICK 0 100", "TICK 0 1"), "STATE")[0].length, 2);
});

// What is said of failures at the lines of a session, as the place of the line after GO and the words.
function failuresOf(session) {
  const found = told(session), start = found.findIndex(({line}) => line.kind === "GO") + 1;
  return toldLines("the session", found, ask).slice(start).flatMap(({means}, at) => means.filter(one => one.startsWith("the call")).map(one => [at, one]));
}

const NO_FILE = "the call at 101 failed: 6, no such file";
const FAILS = OPEN.replace("LAST", "400000000151"), after = lines => FAILS.replace("TICK 0 100\nSTATE 0\n", lines);
// Lines after GO, and at which of them the failure is said. MOVEI is the tick 1, OPEN the ticks 2 to 7, and .BREAK the tick 10.
const SEEN = [
  ["TICK 0 100\n", [0]], ["TICK 0 10\nTICK 0 3\nTICK 0 4\nEXAM 0 1 1\n", [1]], ["TICK 0 6\nPEEK 0\n", [1]], ["TICK 0 5\nPEEK 0\nEXAM 0 1 1\n", []],
  ["TICK 0 7\nEXAM 0 1 1\nPEEK 0\nSTATE 0\n", [1, 3]], ["TICK 0 7\nSTOP 0\nTICK 0 2\n", [1]], ["TICK 0 7\nDEPOSIT 0 2 1\n", [1]],
  ["TICK 0 7\n", []], ["TICK 0 10\n", []], ["TICK 0 100\nCONT 0\nTICK 0 3\nSTATE 0\n", [0]]];

for (const [lines, wanted] of SEEN) {
  test("The line that shows a call that failed: " + lines.trimEnd().replace(/\n/g, ", "), () => {
    assert.deepStrictEqual(failuresOf(after(lines)), wanted.map(at => [at, NO_FILE]));
  });
}

test("A call that failed on a page that is read only, and at a turn of RUN", () => {
  const pure = "VERSION 2\n" + FAILS.replace("GO 100", "RO 0\nGO 100");
  assert.deepStrictEqual(failuresOf(pure), [[0, NO_FILE], [1, NO_FILE]]);
  assert.deepStrictEqual(failuresOf(pure.replace("TICK 0 100", "RUN 2 40")), [[0, NO_FILE], [1, NO_FILE]]);
});

test("A job at the instruction after a call that it has not executed", () => {
  const jumps = FAILS.replace("100/ 201040000005", "100/ 254000000102");
  assert.deepStrictEqual(failuresOf(jumps.replace("TICK 0 100", "TICK 0 1")), []);
  assert.deepStrictEqual(failuresOf(jumps), []);
});
