// docs/INSTRUCTIONS.md: it has each instruction; the program gives what each example of its tables says; its assembly text does what its check
// asks for, and its packed texts are these texts.

import assert from "node:assert";
import fs from "node:fs";
import path from "node:path";
import {test} from "node:test";

import {OPCODES} from "../lib/chart.js";
import {checkOf} from "../lib/checking.js";
import {notAssembled, verdictOf} from "../lib/grading.js";
import {TOP} from "../lib/node/program.js";
import {runInModule} from "../lib/node/tasks.js";
import {asciiOf} from "../lib/words.js";
import {afterOf, rowsOf} from "./manual_rows.js";

const NAME = path.join("docs", "INSTRUCTIONS.md"), MANUAL = fs.readFileSync(path.join(TOP, NAME), "utf8"), ROWS = rowsOf(MANUAL);

test("Each instruction is named once", () => {
  assert.deepStrictEqual(ROWS.flatMap(row => row.names).sort(), [...OPCODES.keys()].sort());
});

for (const {line, names, example, before, after} of ROWS) {
  test(NAME + ", line " + line + ": " + example + " of " + (names[0] || "the row before"), () => assert.strictEqual(afterOf(example, before), after));
}

test("The assembly text does what its check asks for", () => {
  const [, text, tail] = /```asm\n([^]*?)```[^]*?```its\n([^]*?)```/.exec(MANUAL);
  const found = text => verdictOf(runInModule, checkOf("the check", tail, true), {checks: [], texts: new Map()}, text);
  assert.strictEqual(notAssembled(runInModule, text), "");
  assert.deepStrictEqual(found(text).said, "");
  assert.match(found(text.replace(/ *\.CALL HAND.*\n.*\n/, "")).said, /the job has to be stopped/);
});

test("The texts are packed so", () => {
  const rows = [...MANUAL.matchAll(/^\| `([^`]+)` \| `([0-7 ]+)` \|$/gm)];
  assert.ok(rows.length > 2);
  for (const [, text, words] of rows) assert.strictEqual(words.split(" ").map(word => JSON.parse(asciiOf(word))).join(""), text);
});
