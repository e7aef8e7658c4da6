// Cases at an edge in the modules that the page and the commands share: the last word of a row, the last argument, the end of a page or of a run.

import assert from "node:assert";
import {test} from "node:test";

import {causeOf} from "../lib/causes.js";
import {differenceOf} from "../lib/disturbing.js";
import {LONGEST, livesOf, widthOf} from "../lib/layout.js";
import {meaningOf} from "../lib/meaning.js";
import {characterNumber} from "../lib/midas/characters.js";
import {Refused, placeAt} from "../lib/midas/tree.js";
import {Known, errorWords} from "../lib/readings.js";
import {linesOf} from "../lib/session.js";
import {isMark, storyOf} from "../lib/story.js";
import {plainTail} from "../lib/tails.js";
import {Transcript, toldOf} from "../lib/transcript.js";
import {Wrong, bytePointer, held} from "../lib/words.js";

const LOADED = "LOAD U J -\n100/ 254000000100\nGO 100\n", TWICE = LOADED + LOADED;

for (const [size, rows] of [[0, 0], [1, 1], [7, 1], [8, 1], [9, 2], [16, 2], [17, 3]]) {
  test("SHOW of a file of " + size + " words has " + rows + " rows", () => {
    const words = Array(size).fill("000000000001"), shown = [];
    for (let at = 0; at < size; at += 8) shown.push(["/", ...words.slice(at, at + 8)].join(" "));
    const answer = ["W 440000000000 410000000000 420000000000 " + size.toString(8), ...shown, "R 440000000000 0", ""].join("\n");
    assert.deepStrictEqual(toldOf("a", "SHOW D A B\nDIR D\n", answer).map(one => one.answer.length), [rows + 1, 1, 0]);
  });
}

test("A T line that begins with - is no turn of a RUN", () => {
  const session = "VERSION 2\n" + TWICE + "RUN 2 1\n", written = "J 0\nJ 1\nT 0 1*\nT 1 1-\n";
  assert.throws(() => toldOf("a", session, written), /nothing in a asks for this line/);
  assert.deepStrictEqual(toldOf("a", session + "TICK 1 1\n", written).slice(-3).map(({answer}) => answer), [["T 0 1*"], ["T 1 1-"], []]);
  assert.deepStrictEqual(toldOf("a", "VERSION 2\n" + LOADED + "RUN 2 2\n", "J 0\nT 0 1* 1-\n")[4].answer, ["T 0 1* 1-"]);
});

test("What is said of a RUN with fewer turns than it may have", () => {
  const said = (/** @type {string} */ turns, written = "J 0\nT 0 1*\n") => {
    const told = toldOf("a", "VERSION 2\n" + LOADED + "RUN " + turns + " 1\n", written);
    return meaningOf(told[4], new Known());
  };
  assert.deepStrictEqual([said("1"), said("2")], [["slot 0: 1 step"], ["slot 0: 1 step", "it ends early: no job runs then"]]);
});

/** @type {[number, number, number[]][]} */
const BLOCKS = [[8, 7, [0o300]], [9, 8, []], [8, 0, [0o300]], [3, 4, []]];

for (const [count, place, found] of BLOCKS) {
  test("A block of " + count + " arguments, the error number at place " + place, () => {
    const loaded = new Map([[0o200, "400000000000"], [0o201, "576045560000"]]);
    for (let at = 0; at < Math.max(count, place + 1); at += 1) {
      loaded.set(0o202 + at, (at === count - 1 ? "4" : "0") + (at === place ? "03000000300" : "01000000001"));
    }
    assert.deepStrictEqual([...errorWords(loaded)], found);
  });
}

for (const [line, pages] of [["EXAM 0 1777 1", "page 0 (addresses 0 to 1777)"], ["EXAM 0 2000 1", "page 1 (addresses 2000 to 3777)"],
                             ["EXAM 0 1777 2", "page 0 (addresses 0 to 1777) and 1 (addresses 2000 to 3777)"],
                             ["DEPOSIT 0 1777 2", "page 0 (addresses 0 to 1777)"], ["LIST 0 3776 2", "page 1 (addresses 2000 to 3777)"]]) {
  test("Which pages are absent: " + line, () => {
    const [exchange] = toldOf("a", line + "\n", "? 1 NOPAGE\n");
    assert.strictEqual(causeOf(exchange, new Known()).text, "slot 0 has not every page of these words: " + pages);
  });
}

test("A symbol in a tail: of the job in the slot of the line, and in no slot's place", () => {
  const made = [[["X", 1], ["Y", 0o200]], [["Y", 0o300]]].map(own => ({symbols: new Map(/** @type {[string, number][]} */ (own))}));
  const tail = "EXAM 0 Y 1\nEXAM 1 Y 1\nEXAM X Y 1\nTICK X 1\nPEEK X\nCLOCK X\nDEPOSIT 0 Y X\n";
  assert.deepStrictEqual(plainTail("a", tail, /** @type {any[]} */ (made)),
                         ["EXAM 0 200 1", "EXAM 1 300 1", "EXAM X 200 1", "TICK X 1", "PEEK X", "CLOCK 1", "DEPOSIT 0 200 1"]);
  assert.throws(() => plainTail("a", "EXAM 1 X 1\n", /** @type {any[]} */ (made)), /line 1 \(octal 1\): the job has no symbol X/);
});

test("A job is there up to the end of its last run", () => {
  const lane = {slot: 0, seen: true, names: "", note: ""}, run = (letter = "*", count = 3) => ({lane, letter, count, start: 0, line: 1});
  const ends = (/** @type {[number, any][]} */ placed) => (livesOf([{placed, end: 900}], 10).get(lane) || {ends: null}).ends;
  assert.deepStrictEqual(ends([[150, run()]]), [0, 180]);
  assert.deepStrictEqual(ends([[150, run()], [180, run("-", 5)]]), [0, 180]);
  assert.deepStrictEqual(ends([[150, run("*", 1000)]]), [0, 150 + LONGEST]);
  assert.deepStrictEqual([31, 32, 33].map(count => widthOf(run("*", count), 10)), [310, 320, LONGEST]);
});

test("Runs of one letter in two lanes are two runs, and of one lane one", () => {
  const runs = (/** @type {string} */ ticks, /** @type {string} */ written) => {
    const {pieces} = storyOf("a", TWICE + ticks, new Transcript("t", "J 0\nJ 1\n" + written));
    return pieces.flatMap(piece => isMark(piece) ? [] : [[piece.lane.slot, piece.letter, piece.count, piece.start, piece.line]]);
  };
  assert.deepStrictEqual(runs("TICK 0 2\nTICK 1 3\nTICK 0 1\n", "T 0 2*\nT 1 3*\nT 0 1*\n"), [[0, "*", 2, 0, 7], [1, "*", 3, 2, 8], [0, "*", 1, 5, 9]]);
  assert.deepStrictEqual(runs("TICK 0 2\nTICK 0 3\n", "T 0 2*\nT 0 1* 2.\n"), [[0, "*", 3, 0, 7], [0, ".", 2, 3, 8]]);
});

test("Characters after a quote: five of ASCII, six of SIXBIT", () => {
  const number = (/** @type {string} */ mark, /** @type {string} */ text) => characterNumber(mark, text, placeAt(1, 1));
  assert.deepStrictEqual([number('"', "A"), number('"', "ABCDE"), number("'", "A"), number("'", "ABCDEF")],
                         [0o101, (((0o101 * 128 + 0o102) * 128 + 0o103) * 128 + 0o104) * 128 + 0o105, 0o41, 0o414243444546]);
  for (const [mark, text] of [['"', "ABCDEF"], ["'", "ABCDEFG"], ['"', "\u00e9"]]) assert.throws(() => number(mark, text), Refused);
});

test("Two runs that drained as many bytes, but others", () => {
  const seen = (/** @type {string[]} */ ...bytes) => ({looks: /** @type {[string, string[]][]} */ ([]), drained: new Map([["0", bytes]])});
  assert.strictEqual(differenceOf(seen("101", "102"), seen("101", "102")), "");
  assert.strictEqual(differenceOf(seen("101", "102"), seen("101", "103")), 'console 0: "AB", disturbed "AC"');
  assert.strictEqual(differenceOf(seen("101"), seen()), 'console 0: "A", disturbed ""');
});

test("What a MOVING job holds: a byte, or a word", () => {
  const pointers = ["440700001000", "444400001000", "004400001000"];
  assert.deepStrictEqual(pointers.map(pointer => held("000000000101", pointer)), ["'A'", "101", "101"]);
  assert.deepStrictEqual(["000000000177", "000000000200"].map(word => held(word, "441000001000")), ["<177>", "200"]);
});

test("A byte pointer has neither X nor I, nor bit 12", () => {
  const words = ["440700001000", "440740001000", "440720001000", "440701001000", "444500001000", "450700001000", "440000001000"];
  assert.deepStrictEqual(words.map(word => bytePointer(word) !== ""), [true, false, false, false, false, false, false]);
});

for (const [text, version] of [["VERSION 2", 2], ["VERSION 002", 2], [" VERSION  2", 2], ["VERSION 20", 1], ["VERSION 1", 1], ["VERSION 2 2", 1],
                               ["; a\nVERSION 2", 1]]) {
  test("The version of " + JSON.stringify(text), () => assert.strictEqual(linesOf(text + "\nEND\n").slice(-1)[0].version, version));
}

test("A transcript with fewer lines than the session asks for", () => {
  assert.throws(() => toldOf("a", LOADED + "TICK 0 1\n", "J 0\n"), Wrong);
});
