// What the worker of the page answers: running.js, sources.js, turns.js and answers.js of tools/page.

import assert from "node:assert";
import {test} from "node:test";

import {moduleInPage} from "../lib/node/page.js";
import {linesOf, split} from "../lib/session.js";
import {Answers} from "../page/answers.js";
import {inParts, runSession} from "../page/running.js";
import {placedSources, sourcesOf} from "../page/sources.js";
import {turnsIn} from "../page/turns.js";
import {engine, textOf, told} from "./page.js";

/** A worker of the page. */
function worker() {
  const answers = new Answers(() => {});
  answers.open({bytes: moduleInPage()});
  return answers;
}

function lines(answers) { return answers.map((count, at) => ({line: at + 1, answer: Array(count).fill("T"), means: []})); }

// How many answers each line has; the first line of each part and how many lines it has.
const PARTS = [
  [[], []],
  [[0], [[1, 1]]],
  [Array(250).fill(0), [[1, 250]]],
  [Array(251).fill(0), [[1, 250], [251, 1]]],
  [[100000, 0], [[1, 2]]],
  [Array(10).fill(512), [[1, 4], [5, 4], [9, 2]]],
];

for (const [answers, parts] of PARTS) {
  test("Parts of " + answers.length + " lines, the first with " + answers[0] + " answers", () => {
    const found = inParts(lines(answers));
    assert.deepStrictEqual(found.map(({first, count}) => [first, count]), parts);
    assert.deepStrictEqual(found.flatMap(({json}) => JSON.parse(json)), lines(answers));
  });
}

const LOOP = "LOAD U J -\n100/ 254000000100\nGO 100\n";

// A session, a transcript, the verdict, and the line that it names.
const VERDICTS = [
  ["END\n", "", "YES", 0], [LOOP, "J 0\n", "YES", 1], [LOOP, "J 1\n", "NO", 1], [LOOP, "J 0\r\n", "NO", 1], ["CLOCK 8\n", "", "NO", 1],
  ["END\r\n", "? 1 SYNTAX\n", "YES", 1],
];

for (const [session, transcript, answer, line] of VERDICTS) {
  test("verify of " + JSON.stringify([session, transcript]), () => {
    const found = worker().verify({session, transcript});
    assert.deepStrictEqual([found.answer, found.line], [answer, line]);
    assert.strictEqual(found.why.length > 0, answer === "NO");
  });
}

test("How many turns each RUN line has", () => {
  const session = "VERSION 2\n" + LOOP + "RUN 2 1\nRUN 3 1\nTICK 0 1\n", run = text => engine.run(text).transcript;
  assert.deepStrictEqual([...turnsIn(run, linesOf(session), run(session))], [[5, 2], [6, 3]]);
});

test("The beginning of a session that has too many moments", () => {
  const {part} = worker().beginning({text: LOOP + "TICK 0 1000\n".repeat(100) + "END\n"}), lines = split(part);
  assert.deepStrictEqual([lines.length, lines[lines.length - 1]], [43, "END"]);
  assert.strictEqual(runSession(engine, "x", part).reason, "");
});

test("A session that is disturbed after each tick", () => {
  const answers = worker();
  answers.run({name: "tour-run.its", text: textOf("sessions/tour-run.its"), texts: []});
  let {ticks, left} = answers.disturb({way: "exam", settle: 128});
  const cells = [];
  while (left) {
    const more = answers.disturbMore();
    cells.push(...more.cells);
    left = more.left;
  }
  assert.deepStrictEqual([ticks, cells.length > 30, cells.filter(one => one.differs).length], [42, true, 0]);
  assert.ok(cells.some(one => one.frame === "SIOT MOVING" && one.left === 4));
});

test("A source belongs to a slot until the next LOAD there", () => {
  const loaded = "LOAD U J -\n100/ 1\nGO 100\n", session = loaded.repeat(2), source = line => ({line, lines: []});
  assert.deepStrictEqual(placedSources([source(1), source(4), source(7)], told(session)),
                         [{...source(1), slot: "0", until: Infinity}, {...source(4), slot: "1", until: Infinity}]);
});

test("The assembly text of an example is found in its session", () => {
  const found = sourcesOf(engine, linesOf(textOf("sessions/tour-run.its")), [textOf("sessions/tour-run.asm"), textOf("sessions/first.asm")]);
  assert.deepStrictEqual(found.map(({line, lines: own}) => [line, own.length]), [[3, split(textOf("sessions/tour-run.asm")).length]]);
});
