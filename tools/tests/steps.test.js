// The moments of a session, and the steps between them: outline.js, moments.js, looks.js and steps.js of tools/

import assert from "node:assert";
import {test} from "node:test";

import {momentCount} from "../lib/counting.js";
import {linesOf} from "../lib/session.js";
import {Looks} from "../page/looks.js";
import {lettersAround, momentsIn, stepFrom} from "../page/steps.js";
import {engine, textOf, told} from "./page.js";

const LOADED = "LOAD U J -\n100/ 254000000100\nGO 100\n";

function momentsOf(session) { return new Looks(text => engine.run(text), "the session", told(session)); }

// A session, and of each moment [line, slot, letter].
const OUTLINES = [
  ["", [[0, "", ""]]],
  ["; a comment\nEND\n", [[0, "", ""]]],
  ["CLOCK 1\nEND\n", [[0, "", ""], [1, "", ""]]],
  [LOADED, [[0, "", ""], [3, "0", ""]]],
  [LOADED + "TICK 0 2\n", [[0, "", ""], [3, "0", ""], [4, "0", "*"], [4, "0", "*"]]],
  [LOADED + "TICK 1 1\n", [[0, "", ""], [3, "0", ""], [4, "1", "-"]]],
  ["CLOCK 8\n", [[0, "", ""], [1, "", ""]]],
  ["VERSION 2\n" + LOADED + "RUN 2 1\n", [[0, "", ""], [1, "", ""], [4, "0", ""], [5, "0", "*"], [5, "0", "*"]]],
];

for (const [session, outline] of OUTLINES) {
  test("The moments of " + JSON.stringify(session), () => {
    assert.deepStrictEqual(momentsOf(session).outline(), outline);
  });
}

// How many moments lines have at most.
const COUNTS = [["", 1], ["; a comment\n", 1], [LOADED, 2], ["TICK 0 1000\n", 513], ["VERSION 2\nRUN 2 10\n", 18]];

for (const [session, count] of COUNTS) {
  test("So many moments at most: " + JSON.stringify(session), () => assert.strictEqual(momentCount(linesOf(session)), count));
}

test("What holds at a moment inside a call", () => {
  const moments = momentsOf(textOf("sessions/tour-run.its"));
  const at = moments.moments.findIndex(({jobs}) => jobs.has(0) && jobs.get(0).state === "MOVING"), job = moments.view(at, []).jobs["0"];
  assert.deepStrictEqual(job.peek, {slot: 0, state: "MOVING", call: "635157640000", left: 4, a: "440700001000", b: "000000000003", held: "000000000141"});
  assert.deepStrictEqual(job.call, {at: "106", name: "SIOT", arguments: [{role: "channel", value: "1"}, {role: "pointer", address: "1"},
                                                                        {role: "count", address: "2"}]});
  assert.strictEqual(job.words[0][1], "350700001000");
  assert.strictEqual(job.words[0][2], "000000000002");
});

// Moments of lines 1, 1, 2, 3, 3, of which some are steps of the machine.
const MOMENTS = [[0, ""], [1, "*"], [1, "."], [2, ""], [3, "*"], [3, "w"]].map(([line, letter]) => ({line, letter}));
const STEPS = [
  ["first", 3, 0], ["last", 3, 5], ["tick", 0, 1], ["tick", 5, 5], ["tick-back", 1, 0], ["tick-back", 0, 0],
  ["star", 0, 1], ["star", 1, 4], ["star", 4, 4], ["star-back", 5, 4], ["star-back", 4, 1], ["star-back", 1, 1],
  ["line", 0, 2], ["line", 2, 3], ["line", 5, 5], ["line-back", 5, 3], ["line-back", 3, 2], ["line-back", 0, 0],
];

for (const [step, here, to] of STEPS) {
  test("The step " + step + " from " + here, () => assert.strictEqual(stepFrom(MOMENTS, here, step), to));
}

// An index, how many letters are shown on each side, and what is shown.
const LETTERS = [
  [1, 48, {before: "", after: ".", tick: 1, count: 2}], [2, 48, {before: "*", after: "", tick: 2, count: 2}],
  [5, 0, {before: "…", after: "", tick: 2, count: 2}], [4, 0, {before: "", after: "…", tick: 1, count: 2}],
];

for (const [index, most, shown] of LETTERS) {
  test("Letters around " + index + ", " + most + " on each side", () => {
    assert.deepStrictEqual(lettersAround(MOMENTS, index, most), shown);
  });
}

test("Each moment has its place in the picture", () => {
  const spots = [{row: 0, x: 150, width: 16, top: 80, line: 3, kind: "made"}, {row: 0, x: 166, width: 32, top: 80, line: 4, start: 0, count: 2, kind: ""}];
  const moments = momentsIn([[0, "", ""], [3, "0", ""], [4, "0", "*"], [4, "0", "."]], spots);
  assert.deepStrictEqual(moments.map(({tick, place}) => [tick, place]), [[0, undefined], [0, [0, 150, 16, 80]], [1, [0, 166, 16, 80]],
                                                                        [2, [0, 182, 16, 80]]]);
  assert.deepStrictEqual(momentsIn([[0, "", ""]], []), [{line: 0, slot: "", letter: "", tick: 0}]);
});
