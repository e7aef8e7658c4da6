// The story of a session: tools/lib/story.js.

import assert from "node:assert";
import {test} from "node:test";

import {laneNames} from "../lib/picture.js";
import {examLabels, isMark, peekLabels, tellStory} from "../lib/story.js";
import {LOOP, told} from "./shared.js";

const LOADED = "LOAD U J 0\n100/ 254000000100\nGO 100\n", MADE = [0, "made", "LOAD, GO 100", 1];

// The story of a session, with the answers of the program or with these.
function storyOfSession(session, transcript, part) { return tellStory("the session", told(session, transcript), part); }

// A run as [slot, letter, count, ticks before it, line], a mark as [slot or null, kind, its longest label, line].
function brief(piece) {
  if (piece.letter) return [piece.lane.slot, piece.letter, piece.count, piece.start, piece.line];
  return [piece.lane && piece.lane.slot, piece.kind, piece.labels[0], piece.line];
}

const STORIES = [
  ["", []],
  ["; a comment\nEND\n", []],
  [LOADED, [MADE]],
  [LOADED + "TICK 0 3\nTICK 0 2\n", [MADE, [0, "*", 5, 0, 4]]],
  [LOADED + "TICK 1 2\nTICK 0 1\n", [MADE, [1, "-", 2, 0, 4], [0, "*", 1, 2, 5]]],
  [LOADED + "EXAM 0 100 2\nPEEK 0\nSTATE 0\n", [MADE, [0, "disturb", "EXAM 100-101 = 254000000100 0", 4], [0, "look", "PEEK USER", 5],
                                               [0, "disturb", "STATE RUN at 100", 6]]],
  ["TYPE 0 141 15\nDRAIN 0 1\nCLOCK 1\nDIR D\n", [[null, "other", 'TYPE 0 "a<15>"', 1], [null, "other", 'DRAIN 0 ""', 2],
                                                  [null, "other", "CLOCK 1", 3], [null, "other", "DIR D: 0", 4]]],
  ["VERSION 2\n" + LOADED + "RUN 2 1\nLIST 0 100 1\n", [[0, "made", "LOAD, GO 100", 2], [0, "*", 2, 0, 5], [0, "disturb", "LIST 100", 6]]],
  [LOADED + "STATE 1\n", [MADE, [null, "refused", "refused: NOJOB", 4]]],
  ["CLOCK 8\n", [[null, "refused", "refused: SYNTAX", 1]]],
  ["LOAD U J 0\n", [[0, "made", "LOAD", 1], [null, "refused", "refused: CUT", 2]]],
];

for (const [session, pieces] of STORIES) {
  test("The story of " + JSON.stringify(session), () => {
    assert.deepStrictEqual(storyOfSession(session).pieces.map(brief), pieces);
  });
}

test("A part of the lines", () => {
  const story = storyOfSession(LOADED + "TICK 0 3\nCLOCK 1\nTICK 0 2\n", undefined, {first: 5, last: 6});
  assert.deepStrictEqual(story.pieces.map(brief), [[null, "other", "CLOCK 1", 5], [0, "*", 2, 3, 6]]);
});

test("The names of lanes", () => {
  const {lanes} = storyOfSession(LOADED + "TICK 1 2\n");
  assert.deepStrictEqual([null, ...lanes].map(laneNames),
                         [["operator", "consoles, clock, files"], ["slot 0: U J", "console 0"], ["slot 1", "no job seen"]]);
});

// The kinds and the labels of the marks.
function marksOf(session, transcript) {
  return storyOfSession(session, transcript).pieces.filter(isMark).map(({kind, labels}) => [kind, labels[0]]);
}

test("Runs of several lines, and lanes", () => {
  const story = storyOfSession(LOOP + "TICK 0 3\nTICK 0 2\nTICK 1 4\n", "J 0\nT 0 1* 2.\nT 0 2.\nT 1 4-\n");
  assert.deepStrictEqual(story.pieces.filter(piece => !isMark(piece)).map(brief), [[0, "*", 1, 0, 4], [0, ".", 4, 1, 4], [1, "-", 4, 5, 6]]);
  assert.deepStrictEqual(story.lanes, [{slot: 0, seen: true, names: "U J", note: "console 0"}, {slot: 1, seen: false, names: "", note: ""}]);
});

test("A range of lines, and too many pieces", () => {
  const story = storyOfSession(LOOP + "TICK 0 3\nTICK 0 2\nPEEK 0\n", "J 0\nT 0 3*\nT 0 2*\nP 0 USER - 0 - - -\n", {first: 5, last: 5});
  assert.deepStrictEqual(story.pieces.map(({count, start}) => [count, start]), [[2, 3]]);
  assert.throws(() => storyOfSession(LOOP + "TICK 0 1\nPEEK 0\n", "J 0\nT 0 1*\nP 0 USER - 0 - - -\n", {last: 9, most: 1}),
                /a picture has at most 1 bars and marks/);
});

test("Marks of lines", () => {
  assert.deepStrictEqual(marksOf(LOOP + "TYPE 0 101\nDRAIN 0 1\nCLOCK 5\nDIR D\n", "J 0\nY 0 1\nD 0 102\nR 440000000000 0\n"), [
    ["made", "LOAD, GO 100"], ["other", '1 lost of TYPE 0 "A"'], ["other", 'DRAIN 0 "B"'], ["other", "CLOCK 5"], ["other", "DIR D: 0"]]);
});

test("Jobs come and go", () => {
  const state = names => "S 3 " + names + " 0 - STOP 010000000105 " + Array(6).fill("000000000000").join(" ") + "\n";
  const first = "650000000000 520000000000", second = "635100000000 516200000000", session = "STATE 3\n".repeat(4);
  const seen = [["seen", "seen first"], ["disturb", "STATE STOP at 105"]];
  assert.deepStrictEqual(marksOf(session, state(first).repeat(2) + state(second) + "? 4 NOJOB\n"), [
    ...seen, seen[1], ["gone", "gone by now"], ...seen, ["gone", "gone by now"], ["refused", "refused: NOJOB"]]);
  assert.deepStrictEqual(marksOf(LOOP.repeat(2), "J 0\nJ 0\n"), [["made", "LOAD, GO 100"], ["gone", "gone by now"], ["made", "LOAD, GO 100"]]);
  assert.strictEqual(storyOfSession("STATE 3\n", state(first)).lanes[0].note, "inferior of slot 0");
});

test("Labels", () => {
  assert.deepStrictEqual(examLabels("E 0 000100 000000000005 000000000000".split(" ")),
                         ["EXAM 100-101 = 5 0", "EXAM 100-101 = 5 …", "EXAM 100-101", "EXAM"]);
  assert.deepStrictEqual(peekLabels("P 0 USER - 0 - - -".split(" ")), ["PEEK USER", "USER"]);
  assert.deepStrictEqual(peekLabels("P 0 MOVING 635157640000 2 440700001000 000000000001 000000000101".split(" ")),
                         ["PEEK SIOT MOVING 2 'A'", "PEEK MOVING 2", "PEEK"]);
});

test("Refusals", () => {
  assert.deepStrictEqual(marksOf("TICK 0 1001\n", "? 1 RANGE\n"), [["refused", "refused: RANGE"]]);
  assert.strictEqual(storyOfSession("FILE D A B\n", "? 2 CUT\n").pieces.pop().tip, "the input ends -> CUT");
  assert.throws(() => storyOfSession(LOOP + "TICK 0 1\n", "J 0\nT 0 2*\n"), /the session, line 4 \(octal 4\): 'T 0 2\*' does not answer 'TICK 0 1'/);
});
