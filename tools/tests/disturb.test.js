// Sessions that are cut and disturbed: tools/lib/cutting.js, tools/lib/disturbing.js and the command disturb.

import assert from "node:assert";
import {test} from "node:test";

import {ALL, countOfTicks, linesBefore, linesBehind, ticksOf, turnsByLine} from "../lib/cutting.js";
import {differenceOf, seenOf} from "../lib/disturbing.js";
import {split} from "../lib/session.js";
import {LOOP, calledWith, examples, looping, put, shownBy, told} from "./shared.js";

const RUNS = "VERSION 2\n" + LOOP + "RUN 2 3\nTICK 0 2\nEXAM 0 100 1\n";
const disturb = (session, words = [], program = undefined) => calledWith("disturb", [...words, put("a.its", session)], program);

test("A session is cut after each of its ticks", () => {
  const lines = split(RUNS), found = told(RUNS, shownBy(lines)), turns = turnsByLine(found), ticks = [...ticksOf(found)];
  assert.deepStrictEqual([...turns], [[5, ["TICK 0 3", "TICK 0 3"]]]);
  assert.deepStrictEqual(ticks.map(tick => linesBefore(lines, tick).pop()), ["1", "2", "3", "1", "2", "3", "1", "2"].map(count => "TICK 0 " + count));
  const rests = [["TICK 0 2", "TICK 0 3"], ["TICK 0 1", "TICK 0 3"], ["TICK 0 3"], ["TICK 0 2"], ["TICK 0 1"], []];
  rests.forEach((rest, at) => assert.deepStrictEqual(linesBehind(lines, ticks[at], turns), [...rest, ...lines.slice(5)]));
  assert.deepStrictEqual(linesBehind(lines, ticks[6], turns), ["TICK 0 1", "EXAM 0 100 1"]);
});

test("A line that is refused has no ticks", () => {
  assert.deepStrictEqual([...ticksOf(told(LOOP + "TICK 0 1\nTICK 0 1001\n", "J 0\nT 0 1*\n? 5 RANGE\n"))].map(({number}) => number), [1]);
});

for (const [name, [session, transcript]] of Object.entries(examples()).filter(([one]) => !one.includes("exercises"))) {
  test("The ticks of " + name, () => {
    const found = told(session, transcript), ticks = [...ticksOf(found)], range = {...ALL, first: 3, last: 9, slot: 0};
    assert.deepStrictEqual(ticks.map(({number}) => number), Array.from({length: countOfTicks(found)}, (_, at) => at + 1));
    const some = ticks.filter(({number, slot}) => 3 <= number && number <= 9 && slot === 0);
    assert.deepStrictEqual([[...ticksOf(found, range)], countOfTicks(found, range)], [some, some.length]);
  });
}

test("The table", async () => {
  const ended = await disturb(RUNS, ["--settle", "0"], looping);
  assert.deepStrictEqual([ended.status, split(ended.written)[1]], [0, "           1         5 (5)  *       USER                              0  yes"]);
  assert.match(ended.written, /^in decimal: 8 ticks, 8 of them disturbed by EXAM: 8 the same, 0 not$/m);
  assert.match((await disturb(RUNS, ["--from", "2", "--to", "4"], looping)).written, /8 ticks, 3 of them/);
  assert.match((await disturb(RUNS, ["--slot", "1"], looping)).written, /8 ticks, 0 of them/);
});

test("A difference", async () => {
  const ended = await disturb(LOOP + "TICK 0 2\nEXAM 0 100 1\n", ["--settle", "0"], ([kind], input) => {
    const {status, output} = looping([kind], input), ones = input.split("TICK 0 1\n").length - 1;
    return {status, output: output.replaceAll("254000000100", ones.toString(8).padStart(12, "0"))};
  });
  assert.strictEqual(ended.status, 1);
  assert.match(ended.written, /no: EXAM 0 100 1: E 0 000100 000000000000, disturbed E 0 000100 000000000002/);
  assert.match(ended.written, /If a run differs/);
});

// A session and words, and why they are refused.
const REFUSED = [
  [LOOP, [], "there is no TICK line"], [LOOP + "TICK 0 1\n", [], "there is nothing to compare"],
  [RUNS, ["--from", "8"], "8 is no octal number, as --from, --to and --slot take"],
  [LOOP + "TICK 0 1000\n".repeat(9), [], "4608 (octal 11000) ticks would be disturbed, and 4096 (octal 10000) may be: narrow them by --from, --to or --slot"]];

for (const [session, words, said] of REFUSED) {
  test("Refused: " + said, async () => {
    const ended = await disturb(session, words, looping);
    assert.deepStrictEqual([ended.status, ended.written, ended.said.includes(said)], [1, "", true], ended.said);
  });
}

test("What consoles and lines show", () => {
  const session = LOOP + "DRAIN 1 1\nTICK 0 1\nDRAIN 1 1\nDIR D\n";
  const [one, other] = ["", " 102"].map(more => seenOf(told(session, "J 0\nD 1 101\nT 0 1*\nD 1" + more + "\nR 440000000000 0\n")));
  assert.deepStrictEqual([[...one.drained], one.looks.map(([line]) => line)], [[["1", ["101"]]], ["DIR D"]]);
  assert.deepStrictEqual([differenceOf(one, one), differenceOf(one, other)], ["", 'console 1: "A", disturbed "AB"']);
});

test("Fatal bits are set again", async () => {
  const session = "LOAD U J -\n100/ 201040000005 45700000000 201040000006 254000000103\nGO 100\nTICK 0 2\nEXAM 0 1 1\nEND\n";
  const {status, written} = await disturb(session, ["--by", "stop"]);
  assert.strictEqual(status, 0, written);
  assert.match(written, /yes, with BRK set again after CONT, which clears it/);
});

test("A range of ticks", async () => {
  const session = LOOP + "TICK 0 20\nEXAM 0 100 1\nEND\n";
  assert.match((await disturb(session, ["--from", "3", "--to", "5"])).written, /16 ticks, 3 of them disturbed by EXAM: 3 the same, 0 not/);
  assert.match((await disturb(session.replace("20", "24"), ["--slot", "1"])).written, /20 ticks, 0 of them/);
});

test("A job that waits is disturbed after the first and the last w of many", async () => {
  const session = "LOAD U J -\n100/ 43000000120 254000000100\n120/ 400000000000 504156470000 405000000000\nGO 100\nTICK 0 40\nEXAM 0 100 1\nEND\n";
  const brief = await disturb(session), whole = await disturb(session, ["--each"]), rows = text => split(text).filter(row => / w  /.test(row)).length;
  assert.match(brief.written, /^in decimal: 32 ticks, (\d+) of them as the tick before, (\d+) of them disturbed by EXAM: \2 the same, 0 not$/m);
  assert.match(whole.written, /^in decimal: 32 ticks, 32 of them disturbed by EXAM: 32 the same, 0 not$/m);
  assert.deepStrictEqual([rows(brief.written), rows(whole.written) > 10], [2, true]);
});
