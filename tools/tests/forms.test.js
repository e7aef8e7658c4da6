// Tests of the program as a module: over texts (tools/lib/engine.js), and in node (tools/module).

import assert from "node:assert";
import {spawnSync} from "node:child_process";
import {readFileSync} from "node:fs";
import path from "node:path";
import {test} from "node:test";

import {Engine, Trapped} from "../lib/engine.js";
import {moduleInPage} from "../lib/node/page.js";
import {TOP} from "../lib/node/program.js";

const engine = new Engine(moduleInPage());
const USAGE = "usage: its run | its check | its gen N | its verify | its asm | its save\n";
const FIRST = textOf("first.its"), TRANSCRIPT = textOf("first.out");
// (module (memory (export "memory") 1) (func (export "its_main") (result i32) unreachable))
const FAULTY = Buffer.from("AGFzbQEAAAABBQFgAAF/AwIBAAUDAQABBxUCBm1lbW9yeQIACGl0c19tYWluAAAKBQEDAAAL", "base64");

function textOf(name) { return readFileSync(path.join(TOP, "sessions", name), "latin1"); }

// Words, an input, and the status and the output that they have.
const COMMANDS = [
  [["run"], FIRST, 0, TRANSCRIPT],
  [["run"], "STATE 0\n", 2, "? 1 NOJOB\n"],
  [["run"], "", 0, ""],
  [["verify"], FIRST + TRANSCRIPT, 0, "YES 3\n"],
  [["check"], FIRST, 0, "OK " + (FIRST.split("\n").length - 1).toString(8) + "\n"],
  [[], "", 1, USAGE],
  [["gen", ""], "", 1, USAGE],
  [["run", "x".repeat(10000)], "", 1, USAGE],
  [["\xff"], "", 7, ""],
];

for (const [words, input, status, output] of COMMANDS) {
  test("its " + words.join(" ").slice(0, 20) + " of " + JSON.stringify(input.slice(0, 20)), () => {
    assert.deepStrictEqual(engine.call(words, input), {status, output});
    assert.deepStrictEqual(engine.call(words, input), {status, output});
  });
}

test("An answer longer than the first room, and a short one after it", () => {
  const lines = "LOAD U J -\n100/ 0\nGO 100\n" + "EXAM 0 100 1\n".repeat(4000) + "END\n", long = engine.run(lines).transcript;
  assert.ok(long.length > 1 << 16);
  assert.strictEqual(long.split("\n").length, 4002);
  assert.strictEqual(engine.answer("run", FIRST), TRANSCRIPT);
});

test("What is not done or refused is wrong", () => {
  assert.throws(() => engine.answer("what", ""), /the words are no command/);
});

test("A module that met a fault is not used again", () => {
  const faulty = new Engine(FAULTY), first = faulty.instance;
  assert.throws(() => faulty.call(["run"], ""), Trapped);
  assert.notStrictEqual(faulty.instance, first);
});

// Node gives a command no word that is not UTF-8: tools/answers does, from a shell.
for (const [words, input, status, output] of COMMANDS.filter(row => row[0][0] !== "\xff")) {
  test("tools/module " + words.join(" ").slice(0, 20) + " of " + JSON.stringify(input.slice(0, 20)), () => {
    const done = spawnSync(path.join(TOP, "tools", "module"), words, {input, encoding: "latin1"});
    assert.deepStrictEqual([done.status, done.stdout, done.stderr], [status, output, ""]);
  });
}
