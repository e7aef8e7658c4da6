// The rows of a picture: tools/lib/layout.js.

import assert from "node:assert";
import {test} from "node:test";

import {COLUMN, LEFT, LONGEST, SHAPE, cutLabel, gathered, laidOut, livesOf, partOf, rowsOf, widthOf} from "../lib/layout.js";
import {tellStory} from "../lib/story.js";
import {told} from "./shared.js";

const LANE = {slot: 0, seen: true, names: "U J", note: ""};

function run(count, start = 0) { return {lane: LANE, letter: "*", count, start, line: 1}; }
function mark(tip, kind = "disturb") { return {lane: LANE, kind, labels: [tip, tip.split(" ")[0]], tip, at: 0, line: 1}; }

// Pieces, the width of a tick and of the rows; for each row the edge, and how many ticks or which mark each piece is.
const ROWS = [
  [[], 10, 100, [[]]],
  [[run(3)], 10, 100, [[[LEFT, 3]]]],
  [[run(15)], 10, 100, [[[LEFT, 10]], [[LEFT, 5]]]],
  [[run(4), mark("EXAM 0"), run(3, 4)], 10, 100, [[[LEFT, 4], [LEFT + 40, "EXAM 0"], [LEFT + 40 + COLUMN, 3]]]],
  [[run(9), mark("EXAM 0")], 10, 100, [[[LEFT, 9]], [[LEFT, "EXAM 0"]]]],
  [[run(1000), run(1)], 10, 1000, [[[LEFT, 1000], [LEFT + LONGEST, 1]]]],
];

for (const [pieces, tick, span, rows] of ROWS) {
  test("Rows of " + pieces.map(one => one.count || one.tip).join(", "), () => {
    const found = rowsOf(pieces, tick, span);
    assert.deepStrictEqual(found.map(row => row.placed.map(([x, piece]) => [x, piece.count || piece.tip])), rows);
  });
}

test("A run that is parted goes on with its ticks", () => {
  const found = rowsOf([run(25, 7)], 10, 100);
  assert.deepStrictEqual(found.map(row => row.placed.map(([, {start, count}]) => [start, count])), [[[7, 10]], [[17, 10]], [[27, 5]]]);
});

// Marks, and how they are drawn: many equal ones in a row are one.
const GATHERED = [
  [Array(4).fill("EXAM 0 100 1"), Array(4).fill("EXAM 0 100 1")],
  [Array(5).fill("EXAM 0 100 1"), ["5 × EXAM"]],
  [[...Array(5).fill("TYPE 0 141"), "EXAM 0 100 1"], ["5 × TYPE 0", "EXAM 0 100 1"]],
  [["TYPE 0 1", "TYPE 3 1", "TYPE 1 1", "TYPE 0 1", "TYPE 0 1"], ["5 × TYPE 0-3"]],
];

for (const [tips, labels] of GATHERED) {
  test("Marks " + tips.join(", "), () => {
    assert.deepStrictEqual(gathered(tips.map(tip => mark(tip))).map(one => one.labels[0]), labels);
  });
}

test("Labels", () => {
  const long = {labels: ["x".repeat(50), "y".repeat(30)]};
  assert.strictEqual(cutLabel({labels: ["EXAM 100 = 1", "EXAM"]}, 24), "EXAM 100 = 1");
  assert.strictEqual(cutLabel({labels: ["EXAM 100 = 1", "EXAM"]}, 7), "EXAM");
  assert.strictEqual(cutLabel(long, 24), "y".repeat(23) + "…");
});

test("A part of a life that is in a row", () => {
  assert.deepStrictEqual(partOf(1, [0, 200], [2, 300], 900), [LEFT, 900]);
  assert.deepStrictEqual(partOf(0, [0, 200], [0, 300], 900), [200, 300]);
  assert.strictEqual(partOf(3, [0, 200], [2, 300], 900), null);
});

test("A run that is wider than a row", () => {
  const rows = rowsOf([run(30), mark("CLOCK 1"), {...run(100000, 30), letter: "."}], 10, 200);
  assert.deepStrictEqual(rows.map(row => row.placed.map(([x, piece]) => [x, piece.count])),
                         [[[LEFT, 20]], [[LEFT, 10], [LEFT + 100, undefined]], [[LEFT, 100000]]]);
  assert.deepStrictEqual([rows[1].end, rows[2].end], [LEFT + 100 + COLUMN, LEFT + LONGEST]);
  assert.deepStrictEqual([3, 32, 33].map(count => widthOf(run(count), 10)), [30, 320, 320]);
});

test("The life of a job", () => {
  const pieces = [mark("LOAD", "made"), run(10), mark("PEEK", "look"), {...run(5, 10), letter: "-"}, mark("gone", "gone")];
  const life = livesOf(rowsOf(pieces, 10, 1000), 10).get(LANE);
  assert.deepStrictEqual(life, {begins: [0, 158], ends: [0, 274], gone: [0, 340]});
  assert.deepStrictEqual(partOf(0, life.begins, life.ends, 900), [158, 274]);
  assert.deepStrictEqual([0, 1, 2, 3, 4].map(row => partOf(row, [1, 5], [3, 7], 900)), [null, [5, 900], [150, 900], [150, 7], null]);
});

test("Labels that are too long", () => {
  const cut = (labels, most) => cutLabel({labels}, most);
  assert.deepStrictEqual([36, 14, 13, 5, 4].map(most => cut(["a longer label", "short"], most)),
                         ["a longer label", "a longer label", "short", "short", "short"]);
  assert.deepStrictEqual([cut(["x".repeat(40)], 36), cut(["x".repeat(40)], 7)], ["x".repeat(35) + "…", "x".repeat(23) + "…"]);
});

test("Many marks in a row", () => {
  const types = [1, 3, 1, 2, 1].map(console => ({...mark("TYPE " + console + " 101", "other"), lane: null}));
  assert.deepStrictEqual(gathered(types.slice(0, 4)), types.slice(0, 4));
  assert.deepStrictEqual(gathered(types).map(({labels, tip}) => [labels, tip]),
                         [[["5 × TYPE 1-3"], "5 × TYPE 1-3: from 'TYPE 1 101' to 'TYPE 1 101'"]]);
  assert.deepStrictEqual(gathered(Array(9).fill(mark("DRAIN 2 1", "other"))).map(({labels}) => labels), [["9 × DRAIN 2"]]);
  const lanes = [LANE, {...LANE, slot: 1}];
  assert.strictEqual(gathered(Array.from({length: 10}, (_, at) => ({...mark("EXAM 0"), lane: lanes[at % 2]}))).length, 10);
  assert.strictEqual(gathered(Array(10).fill(mark("LOAD", "made"))).length, 10);
});

test("Ninety-six slots", () => {
  const session = "VERSION 2\n" + "LOAD U J -\n100/ 254000000100\nGO 100\n".repeat(96) + "RUN 140 1\n";
  const slots = Array.from({length: 96}, (_, slot) => slot), said = form => slots.map(slot => form.replace("s", slot.toString(8)) + "\n").join("");
  const story = tellStory("the session", told(session, said("J s") + said("T s 1*"))), layout = laidOut(story, SHAPE);
  assert.deepStrictEqual(story.lanes.map(({slot}) => slot), slots);
  assert.deepStrictEqual([...new Set(layout.lanes.flat().map(({slot}) => slot))].sort((one, other) => one - other), slots);
});
