// Words of 36 bits and what is in them, and the symbols that are nearest: tools/lib/words.js, tools/lib/symbols.js.

import assert from "node:assert";
import {test} from "node:test";

import {INPUTS} from "../lib/calls.js";
import {typeOut} from "../lib/chart.js";
import {Symbols} from "../lib/symbols.js";
import {CALLS, Wrong, asSixbit, asciiOf, bytePointer, callName, character, flagsOf, held, number, octal, pcOf, pcWord, pendingNames, short, signed,
        sixbit, typed} from "../lib/words.js";
import {answer, textOf} from "./shared.js";

test("Numbers", () => {
  assert.deepStrictEqual(["0", "17", "000000000005"].map(number), [0, 15, 5]);
  for (const word of ["", "8", "-1", " 1", "1 "]) assert.throws(() => number(word), Wrong);
  assert.deepStrictEqual(["000", "0017", "5"].map(short), ["0", "17", "5"]);
  assert.deepStrictEqual(["0", "377777777777", "400000000000", "777777777777"].map(signed), [0, 2 ** 35 - 1, -(2 ** 35), -1]);
});

test("Names", () => {
  for (const name of ["U", "SIOT", ".IOT", "A B"]) assert.strictEqual(sixbit(asSixbit(name)), name);
  assert.strictEqual(asSixbit("SIOT"), "635157640000");
  assert.deepStrictEqual(["635157640000", "-", "414243000000", "000000000000"].map(callName), ["SIOT", "-", "ABC", "000000000000"]);
});

test("Bytes and text", () => {
  assert.deepStrictEqual([0o101, 0o15].map(character), ["'A'", "<15>"]);
  assert.strictEqual(typed(["101", "15", "142"]), '"A<15>b"');
  const word = 0o101 * 2 ** 29 + 0o102 * 2 ** 22;
  assert.deepStrictEqual([octal(word), octal(word + 1), "0"].map(one => asciiOf(one.padStart(12, "0"))), ['"AB"', "", ""]);
});

test("Bits", () => {
  assert.deepStrictEqual([pendingNames("3"), pendingNames("400001000")], [["BRK", "ILO"], ["400001000"]]);
  assert.deepStrictEqual([pcOf("010000000105"), flagsOf("410000000105")], ["105", ["overflow"]]);
  assert.deepStrictEqual(["010000000105", "000000000105", "010001000105"].map(pcWord), ["PC 105", "", ""]);
  assert.deepStrictEqual(flagsOf("757740000000").slice(0, 4), ["overflow", "carry 0", "carry 1", "floating overflow"]);
  assert.deepStrictEqual([held("000000000012", "440700001000"), held("000000000012", "004400001000"), held("000000000400", "-")], ["<12>", "12", "400"]);
});

// A word, and how it is read as a byte pointer.
const POINTERS = [
  ["444400001000", "before the word at 1000"], ["004400001000", "at the word at 1000"], ["010700000017", "at byte 5 of 17, bytes of 7 bits"],
  ["020700000017", "at the byte of 17 with 2 bits to its right, bytes of 7 bits"], ["440000001000", ""], ["444500001000", ""],
  ["450700001000", ""], ["440720001000", ""], ["440701001000", ""]];

for (const [word, said] of POINTERS) test("The byte pointer " + word, () => assert.strictEqual(bytePointer(word), said));

test("The program has the same calls", () => {
  const found = [...textOf("crates/its_frame/src/name.rt").matchAll(/0o(\d+) => Some\(CallName::(\w+)\)/g)];
  assert.deepStrictEqual(Object.fromEntries(found.map(([, word, name]) => [word.padStart(12, "0"), name.toUpperCase()])),
                         Object.fromEntries(Object.entries(CALLS).map(([word, name]) => [word, name.replace(/^\./, "")])));
  for (const [word, name] of Object.entries(CALLS)) assert.strictEqual(asSixbit(name.replace(/^\./, "")), word);
  assert.deepStrictEqual(new Set(Object.keys(INPUTS)), new Set(Object.values(CALLS).filter(name => ![".IOT", "HANG", "LOGOUT"].includes(name))));
});

test("Words as the assembler writes them, as LIST shows them", () => {
  const words = Array.from({length: 4096}, (_, at) => (at * 16777259 * 4099 % 2 ** 36).toString(8).padStart(12, "0"));
  const lists = Array.from({length: 512}, (_, at) => "LIST 0 " + (0o1000 + 8 * at).toString(8) + " 10\n").join("");
  const rows = Array.from({length: 512}, (_, at) => (0o1000 + 8 * at).toString(8) + "/ " + words.slice(8 * at, 8 * at + 8).join(" ") + "\n").join("");
  const said = answer("run", "VERSION 2\nLOAD U J 0\n" + rows + "GO 100\n" + lists + "END\n").split("\n").slice(1, -1);
  assert.deepStrictEqual(words.map(typeOut), said.map(line => line.split(" ").slice(3).join(" ")));
});

test("Constants name no word", () => {
  const symbols = new Symbols([["AC", 1], ["START", 0o100], ["TTY", 0o171]]);
  assert.deepStrictEqual([0o7, 0o100, 0o170, 0o1000].map(at => symbols.nearest(at)), ["", "START", "START+70", ""]);
  assert.deepStrictEqual([1, 0o100, 0o101].map(at => symbols.exact(at)), ["1", "START", "101"]);
});

test("The nearest symbol", () => {
  const symbols = new Symbols([["START", 0o100], ["LOOP", 0o104], ["SAME", 0o104]]);
  assert.deepStrictEqual([0o77, 0o100, 0o103, 0o104, 0o200].map(at => symbols.nearest(at)), ["", "START", "START+3", "SAME", "SAME+74"]);
  assert.deepStrictEqual([symbols.near(0o101), symbols.near(1)], [" (START+1)", ""]);
  const others = new Symbols([["START", 0o100], ["X", 0o200], ["Y", 0o200]]);
  assert.deepStrictEqual([0o77, 0o100, 0o105, 0o200].map(at => others.nearest(at)), ["", "START", "START+5", "Y"]);
});

// A word as the assembler writes it, and the same with symbols: START is 100, X is 200, AC is 1.
const TYPED = [
  ["MOVEM 1,200", "MOVEM 1,X"], ["MOVE 1,@200(3)", "MOVE 1,@X(3)"], ["MOVEI 1,200", "MOVEI 1,200"], ["MOVE 2,1", "MOVE 2,1"],
  ["MOVE 1,201", "MOVE 1,201"], ["000000000200", "000000000200"], ["JRST 100", "JRST START"], ["MOVEM 1,@100(2)", "MOVEM 1,@START(2)"],
  ["MOVEI 1,100", "MOVEI 1,100"], ["MOVE 1,1", "MOVE 1,1"]];

for (const [text, said] of TYPED) {
  test("With symbols: " + text, () => assert.strictEqual(new Symbols([["X", 0o200], ["AC", 1], ["START", 0o100]]).typed(text), said));
}
