// The folder of a system (tools/lib/node/folder.js): a session that is torn, one that has ended, its transcript, and a second host.

import assert from "node:assert";
import fs from "node:fs";
import path from "node:path";
import process from "node:process";
import {test} from "node:test";

import {rerun} from "../commands/timesharing.js";
import {Folder} from "../lib/node/folder.js";
import {System} from "../lib/system.js";
import {folderOf} from "./shared.js";

const read = (folder, name) => fs.readFileSync(path.join(folder.path, name), "latin1");

/** A program that answers DIR lines alone. */
function directories(...more) {
  const answers = [...more];
  return {write: texts => answers.push(...texts.filter(text => text.startsWith("DIR")).map(() => "R 770000000000 0")), read: async () => answers.shift()};
}

test("a session that begins, goes on after a torn line, and is put away when it has ended", async () => {
  const folder = new Folder(path.join(folderOf(), "new"), false);
  folder.take();
  assert.strictEqual(folder.begun(), "");
  folder.begin("VERSION 2\nCLOCK 1\n");
  folder.add(["CLOCK 2"]);
  await folder.kept();
  folder.close();
  fs.appendFileSync(folder.session, "CLO");
  assert.strictEqual(folder.begun(), "VERSION 2\nCLOCK 1\nCLOCK 2\n");
  assert.strictEqual(folder.lines, 3);
  folder.add(["CLOCK 3", "END"]);
  assert.strictEqual(read(folder, "session.its"), "VERSION 2\nCLOCK 1\nCLOCK 2\nCLOCK 3\nEND\n");
  folder.close();
  assert.strictEqual(folder.begun(), "");
  assert.deepStrictEqual(fs.readdirSync(folder.path), ["session-1.its"]);
});

test("two hosts do not serve one folder, and one that was killed is no hindrance", () => {
  const folder = new Folder(folderOf({"host.pid": process.ppid + "\n"}), false);
  assert.throws(() => folder.take(), /: process \d+ serves it/);
  fs.writeFileSync(folder.owner, "99999999\n");
  folder.take();
  assert.strictEqual(read(folder, "host.pid"), process.pid + "\n");
});

test("a session that is run again has to answer as it did", async () => {
  const text = "VERSION 2\nDIR A\n", answer = "R 770000000000 0\n";
  for (const [before, isWrong] of [["", false], [answer, false], [answer + "R 77", false], ["R 410000000000 0\n", true]]) {
    const folder = new Folder(folderOf({"session.its": text, "session.out": before}), true);
    assert.strictEqual(folder.begun(), text);
    const done = rerun(new System(), directories(), folder, text);
    if (isWrong) await assert.rejects(done, /session.out: line 1 is not what the program answers now/);
    else {
      await done;
      assert.deepStrictEqual([read(folder, "session.its"), read(folder, "session.out")], [text + "DIR _\n", answer + answer]);
    }
  }
  const folder = new Folder(folderOf({"session.its": text}), false);
  folder.begun();
  await assert.rejects(rerun(new System(), directories("? 2 SYNTAX"), folder, text), /a line is refused: \? 2 SYNTAX/);
});
