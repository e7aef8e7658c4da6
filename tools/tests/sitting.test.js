// The session that grows while somebody sits at it, the program that runs it, and the files that keep it.

import assert from "node:assert";
import fs from "node:fs";
import os from "node:os";
import path from "node:path";
import {test} from "node:test";

import {Kept} from "../lib/node/kept.js";
import {Living, MODULE, copierOf, ran} from "../lib/node/living.js";
import {Over, Sitting, startOf, withoutEnd} from "../lib/sitting.js";
import {Wrong} from "../lib/words.js";
import {LOOP, Substitute, Texts, copied} from "./terminal_substitute.js";

const lines = texts => texts.map(text => text + "\n").join("");

/** A sitting at the substitute, which has begun with one job. */
async function begun() {
  const host = new Substitute(), kept = new Texts(), sitting = new Sitting(host, kept);
  await sitting.begin(await startOf(host.copy, "a.its", "VERSION 2\n" + LOOP));
  return {host, kept, sitting};
}

/** A folder for one test. */
function folderFor(own) {
  const folder = fs.mkdtempSync(path.join(os.tmpdir(), "its-"));
  own.after(() => fs.rmSync(folder, {recursive: true}));
  return folder;
}

test("a session begins with lines that are kept", async () => {
  const {host, kept, sitting} = await begun();
  assert.deepStrictEqual(kept.texts, ["VERSION 2\n" + LOOP, "J 0\n"]);
  assert.deepStrictEqual([sitting.version, sitting.hasLinks, sitting.lines, sitting.known.made], [2, false, 4, [0]]);
  assert.deepStrictEqual(lines(host.written), "VERSION 2\n" + LOOP);
});

test("a beginning that is refused says so", async () => {
  await assert.rejects(startOf(new Substitute().copy, "a.its", "CLOCK 1\nNONE\n"),
                       new Wrong("a.its: line 2 (octal 2) is refused as SYNTAX; tools/explain says why"));
  await assert.rejects(startOf(async () => ({output: "", problem: "memory was refused"}), "a.its", ""), new Wrong("a.its: memory was refused"));
});

test("a line is tried on a copy first", async () => {
  const {kept, sitting} = await begun(), refused = await sitting.attempt("NONE");
  assert.deepStrictEqual([refused.reason, refused.answer, kept.texts[0].includes("NONE")], ["SYNTAX", ["? 5 SYNTAX"], false]);
  const done = await sitting.attempt("EXAM 0 100 1");
  assert.deepStrictEqual([done.reason, done.answer], ["", ["E 0 000100 254000000100"]]);
  assert.ok(kept.texts[0].endsWith("GO 100\nEXAM 0 100 1\n"));
});

test("a block is kept at its end", async () => {
  const host = new Substitute(), kept = new Texts(), sitting = new Sitting(host, kept);
  await sitting.attempt("LOAD U J 0");
  assert.deepStrictEqual([sitting.block, kept.texts, host.written], [["LOAD U J 0"], ["", ""], []]);
  await sitting.attempt("100/ 254000000100");
  assert.deepStrictEqual((await sitting.attempt("GO 100")).answer, []);
  assert.deepStrictEqual([sitting.block, kept.texts, lines(host.written)], [[], [LOOP, "J 0\n"], LOOP]);
  assert.deepStrictEqual((await sitting.attempt("EXAM 0 100 1")).answer, ["E 0 000100 254000000100"]);
});

test("a line is kept before the program gets it", async () => {
  const {host, kept, sitting} = await begun(), had = kept.texts[0];
  host.write = () => { throw new Over(kept.texts[0].slice(had.length)); };
  assert.throws(() => sitting.step(["CLOCK 1"]), new Over("CLOCK 1\n"));
});

test("ticks, keys and the clock", async () => {
  const {kept, sitting} = await begun(), [turns, output] = await sitting.ticks(["RUN 2 3"], 0);
  assert.deepStrictEqual([turns, output], [[{slot: 0, letters: "***"}, {slot: 0, letters: "***"}], [65]]);
  assert.strictEqual(await sitting.type(0, [97, 98]), 1);
  sitting.clock(0o10);
  assert.deepStrictEqual([sitting.known.clock, kept.texts[0].split("\n").slice(-4)], [8, ["DRAIN 0 100", "TYPE 0 141 142", "CLOCK 10", ""]]);
});

test("a look is no part of the session", async () => {
  const {kept, sitting} = await begun();
  assert.deepStrictEqual([(await sitting.state(0)).run, await sitting.state(1), await sitting.listed(0, 0o100)], ["RUN", null, "JRST 100"]);
  assert.deepStrictEqual(kept.texts, ["VERSION 2\n" + LOOP, "J 0\n"]);
});

test("a word is listed in version 2, whatever the version", async () => {
  for (const text of ["VERSION 1\n" + LOOP, LOOP]) {
    const host = new Substitute(), sitting = new Sitting(host, new Texts()), seen = [];
    await sitting.begin(await startOf(host.copy, "a.its", text));
    host.copy = async one => (seen.push(one), {output: lines(copied(one)), problem: ""});
    assert.strictEqual(await sitting.listed(0, 0o100), "JRST 100");
    assert.deepStrictEqual(seen, ["VERSION 2\n" + LOOP + "LIST 0 100 1\n"]);
  }
});

test("a session ends", async () => {
  const {host, kept, sitting} = await begun();
  host.answers.push("J 1");
  assert.strictEqual(await sitting.end(), "");
  assert.deepStrictEqual([kept.texts[0].endsWith("\nEND\n"), kept.texts[1], kept.isClosed], [true, "J 0\nJ 1\n", true]);
  host.status = 7;
  assert.strictEqual(await sitting.end(), "the program ended with status 7");
  host.end = async () => { throw new Over("gone"); };
  assert.strictEqual(await sitting.end(), "gone");
});

test("what cannot go on says so", async () => {
  const {host, sitting} = await begun();
  assert.throws(() => sitting.give(["CLOCK 1", "CLOCK 1"], 5), new Over("the session has as many lines as it may have"));
  sitting.transcript[0] = "J 1";
  await assert.rejects(sitting.look(["CLOCK 1"]), new Over("a copy of the session is not answered as the session was"));
  sitting.transcript[0] = "J 0";
  host.answers.push("J 7");
  await assert.rejects(sitting.attempt("EXAM 0 100 1"), new Over("the session is not answered as its copy was"));
  host.copy = async () => ({output: "", problem: "memory was refused"});
  await assert.rejects(sitting.look([]), new Over("memory was refused"));
});

test("a session names the device of links", async () => {
  const {sitting} = await begun();
  sitting.step(["DEPOSIT 0 200 545653000000"]);
  assert.ok(sitting.hasLinks);
});

test("the lines before an END", () => {
  assert.deepStrictEqual(withoutEnd("CLOCK 1\n END \nCLOCK 2\n"), ["CLOCK 1\n", true]);
  assert.deepStrictEqual(withoutEnd("; END\nCLOCK 1"), ["; END\nCLOCK 1\n", false]);
});

test("the files are new, and have at once what is added", own => {
  const name = path.join(folderFor(own), "new.its"), kept = new Kept(name);
  kept.add(0, ["CLOCK 1"]);
  assert.strictEqual(fs.readFileSync(name, "latin1"), "CLOCK 1\n");
  kept.close();
  assert.throws(() => kept.add(0, ["CLOCK 1"]), Over);
  assert.throws(() => new Kept(name), new Wrong(name + ": File exists"));
  assert.throws(() => new Kept(name.replace(".its", ".out")), /would be overwritten by its transcript/);
  assert.throws(() => new Kept(path.join(name, "none.its")), /Not a directory/);
});

/** A program in a folder, of a shell. */
function programOf(folder, text) {
  const name = path.join(folder, "program");
  fs.writeFileSync(name, "#!/bin/sh\n" + text, {mode: 0o755});
  return name;
}

test("a living program answers each line, and many at once", async own => {
  const living = new Living(programOf(folderFor(own), 'while read line; do echo "a $line"; done\nprintf "last"\nexit 3\n'));
  living.write(["one", "two"]);
  assert.deepStrictEqual([await living.read(), await living.read()], ["a one", "a two"]);
  living.write(new Array(20000).fill("x".repeat(20)));                 // more than a pipe holds
  for (let at = 0; at < 20000; at += 1) assert.strictEqual(await living.read(), "a " + "x".repeat(20));
  living.write(["three"]);
  assert.deepStrictEqual(await living.end(), [["a three", "last"], 3]);
});

test("a program that ends, that is killed and that is not there", async own => {
  const folder = folderFor(own), living = new Living(programOf(folder, "read line\necho one\nexit 7\n"));
  living.write(["STOP 0"]);
  assert.strictEqual(await living.read(), "one");
  await assert.rejects(living.read(), new Over("the program ended with status 7"));
  assert.deepStrictEqual(await living.end(), [[], 7]);
  const killed = new Living(programOf(folder, "kill -9 $$\n"));
  await assert.rejects(killed.read(), new Over("the program ended with status -9"));
  await assert.rejects(new Living(path.join(folder, "none")).read(), new Over(path.join(folder, "none") + ": No such file or directory"));
});

test("the module runs copies in this process as in one of its own", async () => {
  const copy = copierOf(MODULE);
  for (const text of ["VERSION 2\n" + LOOP + "STATE 0\nRUN 2 3\n", "NONE\n"]) assert.deepStrictEqual(await copy(text), await ran([MODULE, "run"], text));
});

test("a copy runs from the start", async own => {
  const name = programOf(folderFor(own), '[ "$1" = run ] && cat; exit $2\n');
  assert.deepStrictEqual(await ran([name, "run", "0"], "CLOCK 1\n\xff"), {status: 0, output: "CLOCK 1\n\xff", problem: ""});
  assert.strictEqual((await ran([name, "run", "5"], "")).problem, "memory was refused");
  await assert.rejects(ran([name + "s", "run"], ""), new Over(name + "s: No such file or directory"));
});
