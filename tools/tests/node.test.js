// The ends of commands: running the program (tools/lib/node/program.js), and words, files and output (tools/lib/node/command.js).

import assert from "node:assert";
import {spawnSync} from "node:child_process";
import fs from "node:fs";
import path from "node:path";
import {test} from "node:test";

import {Words, asJson, read, textOf} from "../lib/node/command.js";
import {atHand, program, run, runEach, runLater, runOne, useProgram} from "../lib/node/program.js";
import {Wrong} from "../lib/words.js";
import {TOOLS, called, folderOf, put} from "./shared.js";

// How a program in node ends.
function ended(code) { return run([process.execPath, "-e", code], "a\xffb"); }

test("How a run ends", async () => {
  const cat = "process.stdin.pipe(process.stdout)";
  assert.deepStrictEqual(ended(cat), {status: 0, output: "a\xffb", problem: ""});
  assert.deepStrictEqual(await runLater([process.execPath, "-e", cat], "a\xffb"), {status: 0, output: "a\xffb", problem: ""});
  for (const [status, problem] of [[2, ""], [3, "a read of the input failed"], [5, "memory was refused"], [9, "the program ended with status 9"]]) {
    assert.deepStrictEqual(ended("process.exit(" + status + ")"), {status, output: "", problem});
  }
  assert.throws(() => run(["/none"], ""), /\/none: No such file or directory/);
  await assert.rejects(runLater(["/none"], ""), /\/none: No such file or directory/);
});

test("A run that takes too long", async () => {
  const forever = [process.execPath, "-e", "setTimeout(() => {}, 9000)"];
  assert.strictEqual(run(forever, "", 0.2).problem, "the program took more than 0.2 seconds");
  assert.strictEqual((await runLater(forever, "", 0.2)).problem, "the program took more than 0.2 seconds");
});

test("Many runs", async () => {
  useProgram(([kind], input) => ({status: 0, output: kind + input}));
  const found = [];
  for await (const {output} of runEach(Array.from({length: 20}, (_, at) => String(at)), "asm")) found.push(output);
  assert.deepStrictEqual(found, Array.from({length: 20}, (_, at) => "asm" + at));
  for await (const one of runEach([])) assert.fail(one);
  assert.strictEqual(runOne("!", "a"), "run!");
  useProgram(() => ({status: 5, output: ""}));
  assert.throws(() => runOne("", "a.its"), /a.its: memory was refused/);
});

test("Which program", () => {
  useProgram("/its");
  assert.deepStrictEqual([program(), atHand()], ["/its", "/its"]);
});

test("There is no program", () => {
  const top = folderOf();
  fs.cpSync(TOOLS, path.join(top, "tools"), {recursive: true});
  for (const name of ["proved", "unproved"]) fs.writeFileSync(path.join(top, "tools", name), "#!/bin/sh\nexit 1\n");
  const done = spawnSync(path.join(top, "tools", "explain"), [put("a.its", "END\n")]);
  assert.deepStrictEqual([done.status, done.stderr.toString()],
                         [1, "explain: there is no proved program of these sources, and no unproved one could be made (./its says what is missing)\n"]);
});

test("Files", () => {
  const file = put("a", "\xe9\n");
  assert.deepStrictEqual([read(file), textOf(file)], [Buffer.from([0xe9, 10]), "\xe9\n"]);
  for (const wrong of [path.dirname(file), file + "none"]) assert.throws(() => read(wrong), Wrong);
});

test("Standard input that is closed, and output that is closed or full", () => {
  const explain = path.join(TOOLS, "explain"), session = put("a.its", "END\n"), transcript = put("a.out", "");
  const sh = command => {
    const done = spawnSync("sh", ["-c", command, "sh", explain, session, transcript]);
    return [done.status, done.stderr.toString().replace(/^its: unproved build of .*\n/, "")];
  };
  assert.deepStrictEqual(sh('"$1" "$2" "$3" >&-'), [1, "explain: standard output is closed\n"]);
  assert.deepStrictEqual(sh('"$1" "$2" "$3" >/dev/full'), [1, "explain: standard output: No space left on device\n"]);
  assert.deepStrictEqual(sh('"$1" - "$3" <&-'), [1, "explain: standard input is closed\n"]);
});

test("Words", async () => {
  assert.throws(() => new Words("x", "About.\n  As it is.", []).values(["--no"]), /unrecognized arguments: --no \(x --help says more\)/);
  for (const name of fs.readdirSync(path.join(TOOLS, "commands")).filter(one => /^[a-z]+\.js$/.test(one)).map(one => one.slice(0, -3))) {
    const {status, said, written} = await called(name, ["--help"]);
    assert.deepStrictEqual([status, said, written.startsWith("usage: " + name + " ")], [0, "", true], name);
  }
});

test("Values of words", () => {
  const words = new Words("x", "About.", [
    {name: "--one", about: "on or off"}, {name: "--two", takes: "N", whole: true, otherwise: 7, about: "a number"},
    {name: "--by", choices: ["a", "b"], otherwise: "a", about: "one of two"}, {name: "FILE", about: "a file", many: true}, {name: "LAST", about: "one more"}]);
  assert.deepStrictEqual(words.values(["f", "--two=9", "g", "--one", "h"]), {one: true, two: 9, by: "a", file: ["f", "g"], last: "h"});
  assert.deepStrictEqual(words.values(["--", "-f", "g"]), {one: false, two: 7, by: "a", file: ["-f"], last: "g"});
  for (const [given, said] of [[[], /arguments are required: FILE, LAST/], [["f", "g", "--two", "x"], /argument --two: invalid int value: 'x'/],
                               [["f", "g", "--by", "c"], /argument --by: invalid choice: 'c'/], [["f", "g", "--two"], /argument --two: expected one/]]) {
    assert.throws(() => words.values(given), said);
  }
});

test("JSON", () => assert.strictEqual(asJson({a: [1, "\xe9"], b: null}), '{"a": [1, "\\u00e9"], "b": null}'));
