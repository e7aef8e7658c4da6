// The commands of tools/commands, with the program in the page's module, or with a substitute for it.

import assert from "node:assert";
import fs from "node:fs";
import path from "node:path";
import {test} from "node:test";

import {lineRange} from "../commands/timeline.js";
import {watched} from "../commands/player.js";
import {compared} from "../commands/run.js";
import {leftOut} from "../commands/explain.js";
import {momentCount, momentsOfLine} from "../lib/counting.js";
import {packedPage} from "../lib/node/page.js";
import {joined, linesOf, split} from "../lib/session.js";
import {Wrong} from "../lib/words.js";
import {IMAGE, LOOP, TEXT, TOP, called, calledWith, answer, examples, folderOf, looping, put, textOf} from "./shared.js";

const pathOf = name => path.join(TOP, name), first = pathOf("sessions/first.asm");

// A substitute that assembles TEXT alone, and runs sessions that begin with its image.
function assembling([kind], input) {
  if (kind === "asm") return input.includes("MOVF") ? {status: 2, output: "? 3 SYNTAX\n"} : {status: 0, output: IMAGE};
  const said = split(input).slice(split(IMAGE).length - 1).map(line => line.split(" ")).map(([word, , count]) => ({
    EXAM: "E 0 000200 000000000005\n", TICK: "T 0 " + count + "*\n", DRAIN: "D 0\n",
    STATE: "S 0 650000000000 520000000000 - 0 RUN 010000000101" + " 000000000000".repeat(6) + " 636441626400 1\n"})[word] || "");
  return {status: 0, output: "J 0\n" + said.join("")};
}

const text = put("a.asm", TEXT), wrong = put("b.asm", "JOB U J 0\nLOC 100\nMOVF 1,2\nGO 100\n");
const asm = (name, ...words) => calledWith(name, words, assembling);

test("listing", async () => {
  const lines = split((await asm("listing", text)).written);
  assert.strictEqual(lines[1], " ".repeat(22) + "       1 (1)  ; a ?");
  for (const line of ["000100  200040000102         4 (4)  START:  MOVE 1,[5]", "000102  000000000005         4 (4)  [5]",
                      "000200  X                    6 (6)"]) assert.ok(lines.includes(line), line);
  assert.strictEqual(lines.pop(), "job U J, console 0; 3 words; it starts at 000100, at line 4 (octal 4)");
  const refused = await asm("listing", wrong);
  assert.deepStrictEqual([refused.status, refused.written], [1, ""]);
  assert.match(refused.said, /^listing: .*b.asm, line 3 \(octal 3\), column 1, is refused as SYNTAX: no instruction .* called MOVF/);
});

test("listing of a text that is read otherwise", async () => {
  const {said} = await calledWith("listing", [text], () => ({status: 0, output: IMAGE.replace("100/", "101/")}));
  assert.ok(said.includes("this tool reads other locations than the program has made"), said);
});

test("listing of each example", async () => {
  for (const name of fs.readdirSync(pathOf("sessions")).filter(one => one.endsWith(".asm"))) {
    const {status, said} = await calledWith("listing", [pathOf("sessions/" + name)]);
    assert.deepStrictEqual([status, said], [0, ""], name);
  }
  assert.ok((await calledWith("listing", [first])).written.includes("000100  201040000005         6 (6)  START:  MOVEI 1,5"));
});

test("job", async () => {
  const {written} = await asm("job", text, put("tail.its", "TICK 0 2\nEXAM 0 X 1\n"));
  assert.strictEqual(split(written)[0], text + ": job U J in slot 0, console 0, 3 words at 100 to 102, started at 100 (START)");
  for (const line of ["= EXAM 0 200 1", "2 (2)  EXAM 0 X 1", "000200 (X) holds 000000000005"]) assert.ok(written.includes(line), line);
  const own = await asm("job", text);
  assert.strictEqual(own.status, 0);
  for (const line of ["TICK 0 1000", "DRAIN 0 100", "STATE 0", "job U J, no superior, console 0; found in user mode"]) assert.ok(own.written.includes(line), line);
});

test("job as a session", async () => {
  for (const [tail, end] of [["TICK 0 2\n", "TICK 0 2\nEND\n"], ["TICK 0 X\n END\n", "TICK 0 200\n END\n"]]) {
    assert.strictEqual((await asm("job", "--session", text, put("tail.its", tail))).written, IMAGE.slice(0, -4) + end);
  }
  const {status, written} = await calledWith("job", ["--session", first, put("tail.its", "VERSION 2\nTICK 0 2\nEXAM 0 X 1\n")]);
  assert.deepStrictEqual([status, written.endsWith("\nGO 000100\n; VERSION 2\nTICK 0 2\nEXAM 0 200 1\nEND\n")], [0, true]);
  assert.strictEqual(answer("run", written), "J 0\nT 0 2*\nE 0 000200 000000000005\n");
});

test("job with symbols", async () => {
  const {status, said, written} = await calledWith("job", [first, put("tail.its", "TICK 0 2\nEXAM 0 X 1\nLIST 0 START+1 1\n")]);
  assert.deepStrictEqual([status, said], [0, ""]);
  for (const line of ["EXAM 0 X 1", "= EXAM 0 200 1", "E 0 000200 000000000005", "= LIST 0 101 1", "000101 (START+1): MOVEM 1,X"]) {
    assert.ok(written.includes(line), line);
  }
});

test("job that is refused", async () => {
  const text = await asm("job", wrong), line = await calledWith("job", [first, put("tail.its", "EXAM 0 X 0\n")]);
  assert.deepStrictEqual([text.status, split(text.written)[0], text.written.includes("column 1, is refused as SYNTAX")], [1, wrong + ":", true]);
  assert.deepStrictEqual([line.status, line.written.includes("line 1 (octal 1), column 12, is refused as RANGE")], [1, true]);
});

test("job without a tail", async () => {
  const {status, written} = await calledWith("job", [pathOf("sessions/echo.asm")]);
  assert.deepStrictEqual([status, written.includes("T 0 4. 1* 5. 1* 5. 760w")], [0, true]);
});

test("explain of a text", async () => {
  assert.strictEqual((await asm("explain", text)).written,
                     text + ": assembled: job U J, 3 words, 2 symbols, start 000100 (tools/listing shows them)\n");
  const refused = split((await asm("explain", wrong)).written), value = JSON.parse((await asm("explain", "--json", wrong)).written);
  assert.deepStrictEqual([refused[0], refused.pop()], ["       3 (3)  MOVF 1,2", "1 line refused."]);
  assert.deepStrictEqual([value.line, value.refused.reason, value.refused.column], [3, "SYNTAX", 1]);
  assert.match((await asm("explain", text, wrong)).said, /is an assembly text, which has no transcript/);
});

for (const [name, [session, transcript]] of Object.entries(examples())) {
  test("explain of " + name + " explains each line", async () => {
    const {written} = await calledWith("explain", ["--json", pathOf(name + ".its"), pathOf(name + ".out")]), values = split(written).map(one => JSON.parse(one));
    assert.deepStrictEqual(values.map(one => one.text), split(session).slice(0, values.length));
    assert.strictEqual(joined(values.flatMap(one => one.answer)), transcript);
  });
}

test("explain without a transcript", async () => {
  const written = split((await calledWith("explain", ["--json", pathOf("sessions/echo.its")])).written).map(one => JSON.parse(one));
  assert.strictEqual(joined(written.flatMap(one => one.answer)), textOf("sessions/echo.out"));
});

test("explain says what is left out", async () => {
  assert.deepStrictEqual(leftOut(3, 3), []);
  assert.strictEqual(leftOut(3, 4)[1], "The session is over here: 1 line after it is not looked at.");
  assert.strictEqual(leftOut(3, 5)[1], "The session is over here: 2 lines after it are not looked at.");
  const lines = split((await calledWith("explain", [put("a.its", "CLOCK 8 \xc3\xa9\nCLOCK 1\n"), put("a.out", "? 1 SYNTAX\n")])).written);
  assert.deepStrictEqual([lines[0], lines[1].indexOf("^"), lines.pop()], [
    "       1 (1)  CLOCK 8 ??", 22, "The session is over here: 1 line after it is not looked at."]);
});

test("explain of a transcript that is not licensed", async () => {
  const {status, written} = await calledWith("explain", [pathOf("sessions/first.its"), put("first.out", textOf("sessions/first.out").replace("2*", "2-"))]);
  assert.deepStrictEqual([status, split(written)[0].endsWith("NO 2: this is no transcript of " + pathOf("sessions/first.its"))], [1, true]);
});

test("timeline", async () => {
  const session = pathOf("sessions/first.its"), transcript = pathOf("sessions/first.out");
  assert.deepStrictEqual(await calledWith("timeline", [session]), {status: 0, written: textOf("sessions/first.svg", "utf8"), said: ""});
  for (const [words, said] of [["9-2", "--lines 9-2: it takes two line numbers"], ["1-1", "lines 1-1 do nothing that is drawn"]]) {
    assert.ok((await called("timeline", [session, transcript, "--lines", words])).said.includes(said), said);
  }
  assert.deepStrictEqual(["26-36", "7", "7-7"].map(lineRange), [{first: 26, last: 36}, {first: 7, last: 7}, {first: 7, last: 7}]);
  for (const one of ["", "0", "0-4", "a", "3-", "-3", "1-2-3"]) assert.throws(() => lineRange(one), Wrong, one);
});

test("run", async () => {
  assert.deepStrictEqual(await calledWith("run", [pathOf("sessions/links")]), {status: 0, written: "31 passed, 0 failed\n", said: ""});
  const failed = await calledWith("run", [put("a.its", "CLOCK 1\n")], () => ({status: 7, output: ""}));
  assert.deepStrictEqual([failed.status, split(failed.written).pop()], [1, "0 passed, 1 failed"]);
  const folder = folderOf({"b.its": LOOP}), name = path.join(folder, "b.its"), alone = await calledWith("run", [name], looping);
  assert.deepStrictEqual([alone.status, split(alone.written).slice(1)], [0, ["J 0", "0 passed, 0 failed, 1 with nothing to compare"]]);
  fs.writeFileSync(path.join(folder, "b.out"), "J 1\n");
  const differs = await calledWith("run", [name], looping);
  assert.strictEqual(split(differs.written)[0], name + ": its transcript is not " + path.join(folder, "b.out") + " (@@: the lines, in decimal)");
  assert.deepStrictEqual([differs.status, split(differs.written).slice(-3)], [1, ["-J 1", "+J 0", "0 passed, 1 failed"]]);
  assert.match((await called("run", [folderOf()])).said, /there is no file NAME.its in this folder/);
  assert.match(compared("a.its", null, {status: 2, output: "? 1 SYNTAX\n", problem: ""})[0], /a line is refused/);
});

const LONG = put("long.its", "VERSION 2\n" + LOOP + "TICK 0 1000\n".repeat(100) + "END\n");

// The session in the page that player makes, or what is said.
async function packed(...words) {
  const {written, said} = await called("player", [...words, LONG]);
  return written ? JSON.parse(written.split('id="packed">\n')[1].split("\n")[0]).text : said.split(": ").slice(2).join(": ").trim();
}

test("player of a part", async () => {
  const loaded = "VERSION 2\n" + LOOP + "TICK 0 1000\n";
  assert.deepStrictEqual([await packed("--to", "5"), await packed("--from", "2", "--to", "5"), await packed("--from", "104")],
                         [loaded, loaded, "VERSION 2\nTICK 0 1000\nEND\n"]);
  assert.match(await packed(), /one steps through 20000 \(octal 47040\) moments at most, and its lines have up to 51203 \(octal 144003\), more than that from line 44 \(octal 54\) on/);
  assert.match(await packed("--to", "50"), /smaller part/);
  assert.strictEqual(await packed("--to", "2"), "the part ends inside the block of LOAD that line 2 (octal 2) opens");
  assert.strictEqual(await packed("--from", "3"), "the part begins inside the block of LOAD that line 2 (octal 2) opens");
  for (const words of [["--from", "0"], ["--from", "106"], ["--from", "9", "--to", "8"]]) {
    assert.strictEqual(await packed(...words), "--from and --to take a first and a last line, in decimal, and its lines are 1 to 105 (octal 151)");
  }
});

test("player looks at words", () => {
  assert.deepStrictEqual(["7", "777777", "10,2"].map(watched), [[7], [0o777777], [8, 9]]);
  for (const words of ["", "8", "1,2,3", "0,0", "0,101", "777777,2", "-1"]) assert.throws(() => watched(words), Wrong, words);
});

// A line, and how many moments it has at most.
const MOMENTS = [["TICK 0 10", 8], ["RUN 10 10", 64], ["TICK 0", 0], ["TICK 0 9", 0], ["; x", 0], ["", 0], ["CLOCK 1", 1], ["GO 1", 1], ["a/ 1", 0]];

for (const [line, count] of MOMENTS) test("The moments of '" + line + "'", () => assert.strictEqual(momentsOfLine(linesOf(line)[0]), count));
for (const [session, count] of [["", 1], ["; a comment\n", 1], ["LOAD U J -\n100/ 254000000100\nGO 100\n", 2], ["TICK 0 1000\n", 513], ["VERSION 2\nRUN 2 10\n", 18]]) {
  test("So many moments at most: " + JSON.stringify(session), () => assert.strictEqual(momentCount(linesOf(session)), count));
}

test("player of nothing", async () => assert.match((await called("player", [put("a.its", "; only a comment\n")])).said, /there is nothing to show/));

test("A session in the page", async () => {
  const top = folderOf();
  for (const name of ["commands", "lib"]) fs.cpSync(path.join(TOP, "tools", name), path.join(top, "tools", name), {recursive: true});
  fs.mkdirSync(path.join(top, "docs"));
  fs.writeFileSync(path.join(top, "docs", "its.html"), "<html>");
  const other = await import(path.join(top, "tools", "lib", "node", "page.js"));
  assert.throws(() => other.packedPage("b.its", "", []), /docs\/its.html has no place for a session/);
  const value = packedPage("a.its", "</script>\u00e9<b>", [8, 9]).split('id="packed">\n')[1].split("\n")[0];
  assert.ok(!value.includes("<"));
  assert.deepStrictEqual(JSON.parse(value), {name: "a.its", text: "</script>\u00e9<b>", watch: ["10", "11"]});
});
