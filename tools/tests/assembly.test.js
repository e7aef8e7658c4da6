// Assembly texts: tools/lib/assembly.js, the causes of their mistakes (asm_causes.js, asm_syntax.js), what the program makes of them
// (assembled.js), and the lines of tails (tails.js). asm_mistakes.txt has the mistakes.

import assert from "node:assert";
import fs from "node:fs";
import path from "node:path";
import {test} from "node:test";

import {asmCause, warningsOf} from "../lib/asm_causes.js";
import {Assembled, mustBeGood} from "../lib/assembled.js";
import {isAssembly, readingOf} from "../lib/assembly.js";
import {OPCODES} from "../lib/chart.js";
import {linesOf, split} from "../lib/session.js";
import {imageLines, plainLine, plainTail} from "../lib/tails.js";
import {inWords} from "../lib/told.js";
import {IMAGE, TEXT, TOP, answer, textOf} from "./shared.js";

const HEAD = "JOB U J -\nLOC 100\n";

// A row of asm_mistakes.txt: reason, line, column, words and text.
function mistakeOf(row) {
  const [place, words, ...rest] = row.split(" | "), [reason, line, column] = place.split(" "), written = rest.join(" | ");
  const whole = (written.startsWith("^") ? written.slice(1) : HEAD + written).replace(/(\d+)\*A/, (_, count) => "A".repeat(Number(count)));
  const text = whole.replaceAll("\\n", "\n").replaceAll("\\t", "\t").replaceAll("\\r", "\r");
  return {reason, line: Number(line), column: Number(column), words, text};
}

const MISTAKES = split(textOf("tools/tests/asm_mistakes.txt")).filter(row => !row.startsWith("#")).map(mistakeOf);

test("There are many mistakes", () => assert.ok(MISTAKES.length >= 40));

for (const {reason, line, column, words, text} of MISTAKES) {
  test(reason + ": " + words, () => {
    const cause = asmCause(readingOf(text), line, reason);
    assert.ok(cause.text.includes(words), cause.text);
    assert.strictEqual(cause.column, column);
    assert.strictEqual(answer("asm", text), "? " + line.toString(8) + " " + reason + "\n");
  });
}

test("The chart has the instructions of the program", () => {
  const chart = /b"\\\n(.*?)";/s.exec(textOf("crates/its_chart/src/mnemonic.rt", "utf8"))[1].replaceAll("\\", "").split(/\s+/).filter(Boolean);
  assert.deepStrictEqual([...OPCODES], chart.flatMap((name, opcode) => name === "-" ? [] : [[name, opcode]]));
});

for (const name of fs.readdirSync(path.join(TOP, "sessions")).filter(one => one.endsWith(".asm"))) {
  test("The text of " + name, () => {
    const reading = readingOf(textOf("sessions/" + name));
    assert.deepStrictEqual(warningsOf(reading), []);
    assert.ok(reading.given.size);
  });
}

test("Literals", () => {
  const reading = readingOf(HEAD + "A: MOVE 1,[5]\nMOVE 2,[1,,A]\nMOVE 3,[5]\nGO A");
  assert.deepStrictEqual(reading.literals, [{text: "5", word: 5, line: 3}, {text: "1,,A", word: 0o1000100, line: 4}]);
  assert.strictEqual(reading.base, 0o103);
  const {literals, base} = readingOf(TEXT);
  assert.deepStrictEqual([literals.map(({text}) => text), base], [["5"], 0o102]);
});

test("Warnings", () => {
  assert.deepStrictEqual(warningsOf(readingOf(HEAD + "SIXBIT /TTY/\nGO 100")),
                         ["line 3 (octal 3): the slashes belong to the name here; write SIXBIT TTY"]);
  const found = warningsOf(readingOf(HEAD + "A: MOVE 1,[5]\nMOVEM 1,BUF\nBUF: GO A"));
  assert.strictEqual(found.length, 1);
  assert.ok(found[0].includes("the literals are at 102 to 102, and BUF (line 5 (octal 5)) is 102"), found[0]);
  assert.deepStrictEqual(warningsOf(readingOf(HEAD + "A: MOVE 1,[5]\nBUF: LOC .+10\nGO A")), []);
  assert.deepStrictEqual(warningsOf(readingOf(HEAD + "A: MOVE 1,[5]\nLAST = .\nGO A")), []);
});

// A name of a file and a text, and whether it is an assembly text.
for (const [name, text, wanted] of [["a.asm", "", true], ["a", "; x\n\nJOB U J 0", true], ["a", " JOB", true], ["a", "JOBS", false], ["a", "", false]]) {
  test("An assembly text or not: " + JSON.stringify([name, text]), () => assert.strictEqual(isAssembly(name, text), wanted));
}

test("What the program makes of a text", () => {
  const made = new Assembled(TEXT, IMAGE);
  assert.deepStrictEqual([made.job, made.start, [...made.symbols]], [["U", "J", "0"], 0o100, [["START", 0o100], ["X", 0o200]]]);
  assert.deepStrictEqual([...made.words], [[0o100, "200040000102"], [0o101, "254000000100"], [0o102, "000000000005"]]);
  assert.deepStrictEqual(imageLines(made), split(IMAGE).slice(1, -1));
  assert.strictEqual(mustBeGood("a.asm", made), made);
  assert.strictEqual(answer("asm", "JOB U J 0\nLOC 100\nSTART: MOVE 1,[5]\nJRST START\nX = 200\nGO START\n").replaceAll(/\b0+(?=\d)/g, ""),
                     IMAGE.replaceAll(/\b0+(?=\d)/g, ""));
});

test("A text that is refused", () => {
  const made = new Assembled("JOB U J 0\nLOC 100\nMOVF 1,2\nGO 100\n", "? 3 SYNTAX\n");
  assert.deepStrictEqual([made.refused.line, made.refused.reason, made.words.size], [3, "SYNTAX", 0]);
  assert.deepStrictEqual(inWords(made.told()).slice(0, 2), ["       3 (3)  MOVF 1,2", " ".repeat(14) + "^"]);
  assert.throws(() => mustBeGood("b.asm", made), /b.asm, line 3 \(octal 3\), column 1, is refused as SYNTAX: no instruction/);
});

test("Tails", () => {
  const made = new Assembled(TEXT, IMAGE);
  assert.deepStrictEqual(plainTail("tail", "VERSION 2\nEXAM 0 X 1\nVERSION 2\n", [made]), ["; VERSION 2", "EXAM 0 200 1", "VERSION 2"]);
  assert.deepStrictEqual(plainTail("tail", "EXAM 0 START+777777 1\nEXAM 1 X 1\nSHOW X X X", [made, made]), ["EXAM 0 77 1", "EXAM 1 200 1", "SHOW X X X"]);
  assert.throws(() => plainTail("tail", "EXAM 0 Y 1\n", [made]), /the job has no symbol Y/);
});

// A line of a tail, and the same in numbers: X is 200 in slot 0 and 300 in slot 1.
const PLAIN = [
  ["EXAM 0 X 1", "EXAM 0 200 1"], ["EXAM 1 X+2 1", "EXAM 1 302 1"], ["DEPOSIT 0 X X-1", "DEPOSIT 0 200 177"], ["DIR X", "DIR X"],
  ["TICK  0 5", "TICK  0 5"], ["; EXAM 0 X 1", "; EXAM 0 X 1"]];

for (const [written, plain] of PLAIN) {
  test("The line " + written, () => {
    assert.strictEqual(plainLine("tail", linesOf(written)[0], [new Map([["X", 0o200]]), new Map([["X", 0o300]])]), plain);
  });
}

test("A symbol that the job has not", () => {
  assert.throws(() => plainLine("tail", linesOf("EXAM 0 RESUL 1")[0], [new Map([["RESULT", 0o200]])]),
                /tail, line 1 \(octal 1\): the job has no symbol RESUL; is it RESULT\?/);
});
