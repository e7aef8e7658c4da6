// The terminal of the checks of tools/terminal, and its words.

import assert from "node:assert";
import {spawnSync} from "node:child_process";
import fs from "node:fs";
import path from "node:path";
import {test} from "node:test";

import {choicesOf, firstSlot, left, main, sat, sessionOf} from "../commands/terminal.js";
import {Glass} from "../lib/glass.js";
import {TOP} from "../lib/node/program.js";
import {HungUp, Signalled} from "../lib/node/screen.js";
import {errorWords} from "../lib/readings.js";
import {Over} from "../lib/sitting.js";
import {texts} from "./terminal_person.js";

test("the terminal of the checks", () => {
  let glass = new Glass(10, 4);
  glass.feed("\x1b[1;3r\x1b7\x1b[4;1H\x1b[7mstatus\x1b(B\x1b[m\x1b8a\r\nb\r\nc\r\nd");
  assert.deepStrictEqual(glass.lines(), ["b", "c", "d", "status"]);
  assert.ok(glass.reverse[3][0] && !glass.reverse[2][0]);
  glass = new Glass(10, 2);
  for (const part of ["ab\x1b", "[2;", "3Hc"]) glass.feed(part);
  assert.deepStrictEqual(glass.lines(), ["ab", "  c"]);
  glass = new Glass(4, 2);
  glass.feed("abcde\x1b[A\x1b[2CX\tY\x1b[1;2H\x1b[Kz\x1b[2Dq\b\b\b-");
  assert.deepStrictEqual(glass.lines(), ["-z", "e"]);
});

test("what came, without commands and status lines", () => {
  const seen = "\x1b[1mab\x1b7\x1b[24;1H\x1b[7m slot 0 \x1b(B\x1b[m\x1b8c\r\n";
  assert.strictEqual(texts(seen), "abc\r\n");
  let longest = "";
  for (let at = 0; at <= seen.length; at += 1) {
    const text = texts(seen.slice(0, at));
    assert.ok(text.startsWith(longest), at + text);                     // what is not whole yet is left out
    longest = text;
  }
});

test("what the words choose", () => {
  const words = {interrupt: "^Z", bound: 5, clock: false};
  assert.deepStrictEqual(choicesOf({...words, slot: "137"}), {interrupt: 26, bound: 5, hasClock: false, slot: 0o137});
  assert.strictEqual(choicesOf(words).slot, null);
  for (const [wrong, said] of [[{interrupt: "^1"}, /a key is one character/], [{bound: 0}, /--bound is 1 or more/], [{slot: "140"}, /a slot is 0 to 137, in octal/],
                               [{slot: "9"}, /a slot is 0 to 137, in octal/], [{slot: ""}, /a slot is 0 to 137, in octal/]]) {
    assert.throws(() => choicesOf({...words, ...wrong}), said);
  }
});

test("without a terminal the status is 2, and the files of the help are there", async () => {
  const done = spawnSync(path.join(TOP, "tools", "terminal"), [], {stdio: ["ignore", "pipe", "pipe"]});
  assert.deepStrictEqual([done.status, done.stdout.toString()], [2, ""]);
  assert.match(done.stderr.toString(), /standard input is no terminal; .\/its run takes a session from a file or a pipe/);
  const help = spawnSync(path.join(TOP, "tools", "terminal"), ["--help"]).stdout.toString(), files = help.match(/(sessions|docs)\/[A-Za-z.-]*\w/g);
  assert.ok(files.length >= 3);
  for (const file of files) assert.ok(fs.existsSync(path.join(TOP, file)), file);
  for (const word of ["step", "symbol", "slot", "exam LOOP+1 4", "--clock"]) assert.ok(help.includes(word), word);
  await assert.rejects(main(["--bound", "x"]), /argument --bound: invalid int value: 'x'/);
  await assert.rejects(main(["--bound", "0"]), /--bound is 1 or more/);
  await assert.rejects(main(["none.its"]), /none.its: No such file or directory/);
});

test("the session of a text", () => {
  assert.deepStrictEqual(sessionOf("its", undefined, ""), ["VERSION 2\n", []]);
  assert.deepStrictEqual(sessionOf("its", "a.its", "CLOCK 1\nEND\nCLOCK 2\n"), ["CLOCK 1\n", ["The session goes on in place of its END."]]);
  const folder = fs.mkdtempSync(path.join("/tmp", "its-")), its = path.join(folder, "its"), text = "JOB U J 0\n MOVF 1\n";
  try {
    for (const [script, said] of [["echo '? 2 SYNTAX'; exit 2", /^a.asm: line 2 \(octal 2\) is refused as SYNTAX: MOVF 1 \(docs/], ["exit 5", /is refused as nothing \(docs/]]) {
      fs.writeFileSync(its, "#!/bin/sh\ncat > /dev/null\n" + script + "\n", {mode: 0o755});
      assert.throws(() => sessionOf(its, "a.asm", text), one => said.test(one.message));
    }
    fs.writeFileSync(its, "#!/bin/sh\ncat > /dev/null\necho 'CLOCK 1'; echo END\n", {mode: 0o755});
    assert.deepStrictEqual(sessionOf(its, "a.asm", text), ["CLOCK 1\n", []]);
  } finally {
    fs.rmSync(folder, {recursive: true});
  }
});

test("the first job that is still there", async () => {
  const sitting = {known: {made: [3, 5]}, state: async slot => slot === 5 ? {run: "RUN"} : null};
  assert.strictEqual(await firstSlot(sitting), 5);
  sitting.known.made = [3];
  assert.strictEqual(await firstSlot(sitting), null);
});

test("what can be done with the session", () => {
  const said = left({path: "a.its", transcriptPath: "a.out"}).split("\n");
  assert.ok(said[1].endsWith("its run < a.its"));
  assert.ok(said[4].endsWith("player a.its > session.html"));
});

test("however it ends, the terminal is restored", async () => {
  for (const [wrong, caught, ended] of [[new HungUp(), 0, [0, ""]], [new Signalled(), 15, [143, ""]], [new Over("over"), 0, [0, "over"]]]) {
    let restored = 0;
    const sitting = {begin: async () => { throw wrong; }, end: async () => ""}, screen = {signals: {caught}, restore: () => { restored += 1; }};
    assert.deepStrictEqual(await sat(sitting, null, screen, {}, []), ended);
    assert.strictEqual(restored, 1);
  }
});

test("each argument of a call up to the eighth may get an error number", () => {
  const call = count => {
    const words = [[0o100, "400000000000"], [0o101, "635157640000"]];  // SIOT
    for (let at = 0; at < count; at += 1) words.push([0o102 + at, (at === count - 1 ? "403000000" : "001000000") + (0o200 + at).toString(8)]);
    return [...errorWords(new Map(words))];
  };
  for (const count of [1, 7, 8]) assert.deepStrictEqual(call(count), [0o200 + count - 1], count + " arguments");
  assert.deepStrictEqual(call(9), []);
});
