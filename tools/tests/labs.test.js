// The tasks of labs/: each solution passes, each wrong solution fails with its sentence, and each text to begin with is assembled and fails. And what
// tools/grade says of texts that are no solutions at all, of several texts, and by GNU parallel.

import assert from "node:assert";
import {spawnSync} from "node:child_process";
import fs from "node:fs";
import os from "node:os";
import path from "node:path";
import {after, test} from "node:test";

import {bytesWanted, checkOf, wordsWanted} from "../lib/checking.js";
import {ASSEMBLES, MOST_LINES, notAssembled, verdictLine, verdictOf} from "../lib/grading.js";
import {TOP} from "../lib/node/program.js";
import {sideBySide} from "../lib/node/sharing.js";
import {folderOf, runInModule} from "../lib/node/tasks.js";

const LABS = path.join(TOP, "labs"), TASKS = fs.readdirSync(LABS).filter(name => /^\d/.test(name)), GRADE = path.join(TOP, "tools", "grade");
const WORK = fs.mkdtempSync(path.join(os.tmpdir(), "its-labs-")), START = path.join(LABS, "1-call", "start.asm");
const SOLUTION = path.join(LABS, "1-call", "teacher", "solution.asm"), LOOP = "JOB U J 0\nLOC 100\nSTART: JRST START\nGO START\n";

after(() => fs.rmSync(WORK, {recursive: true}));

// A file with this text.
function put(name, text) {
  fs.writeFileSync(path.join(WORK, name), text, "latin1");
  return path.join(WORK, name);
}

// How tools/grade ends with these words.
function graded(...words) {
  const done = spawnSync(GRADE, words, {maxBuffer: 1 << 28, encoding: "latin1"});
  return {status: done.status, out: done.stdout.split("\n").slice(0, -1), said: done.stderr};
}

// The files of a folder of a task, by the beginning of their names.
function filesOf(task, folder, start) {
  const whole = path.join(LABS, task, folder);
  return fs.readdirSync(whole).filter(name => name.startsWith(start) && name.endsWith(".asm")).sort().map(name => path.join(whole, name));
}

for (const task of TASKS) {
  test(task + ": the solution passes, and each wrong one fails with its sentence", async () => {
    const wrong = filesOf(task, "teacher", "wrong-"), files = [...filesOf(task, "teacher", "solution"), ...filesOf(task, "", "start"), ...wrong];
    const reports = new Map();
    await sideBySide([folderOf(task), "all"], files, os.cpus().length, report => reports.set(report.file, report));
    const [solution, start] = files.map(file => reports.get(file));
    assert.deepStrictEqual(solution.checks.filter(one => !one.passed).map(verdictLine), []);
    assert.deepStrictEqual([start.passed, start.checks[0].passed, start.checks.some(one => one.isPublic && !one.passed)], [false, true, true]);
    assert.ok(wrong.length >= 3);
    for (const file of wrong) {
      const [, fails] = /^; Fails: (.+)$/m.exec(fs.readFileSync(file, "latin1")), {checks} = reports.get(file);
      assert.ok(checks[0].passed, file);
      assert.ok(checks.some(one => !one.passed && one.said.includes(fails)), file + " says: " + checks.map(verdictLine).join("\n"));
    }
  });
}

test("Each task has a page that names its public checks", () => {
  for (const task of TASKS) {
    const page = fs.readFileSync(path.join(LABS, task, "README.md"), "latin1");
    for (const part of ["Aim", "Read", "Begin with", "Asked", "Graded"]) assert.ok(page.includes("**" + part), task + ": " + part);
    for (const name of fs.readdirSync(path.join(LABS, task)).filter(one => /\.(its|asm)$/.test(one))) assert.ok(page.includes("`" + name + "`"), task + ": " + name);
  }
});

// A text that is no solution, and what the grader says.
const ODD = [
  ["an endless program", LOOP, /FAIL  the console shows HELLO.*it runs at 100 \(START\): JRST START/],
  ["no text", "", /^FAIL  The text is assembled: the text is empty$/m],
  ["100,000 lines", "; a line\n".repeat(100000), new RegExp("the text has 100000 .octal 303240. lines, and one that is graded may have " + MOST_LINES)],
  ["odd bytes", "\0\xff\xfe\x80\n", /line 1 \(octal 1\).* is refused as SYNTAX/],
  ["a line without end", "x".repeat(1 << 20), /line 1 \(octal 1\).* is refused as LONG/],
  ["no GO", "JOB U J 0\n", /is refused as CUT/],
  ["a symbol that is not there", LOOP.replace("GO", "MOVE 1,NONE\nGO"), /is refused as UNDEF/]];

for (const [about, text, said] of ODD) {
  test("Of " + about + " something clear is said", () => {
    const {status, out} = graded("1-call", put("odd.asm", text));
    assert.deepStrictEqual([status, out.length], [1, 3]);
    assert.match(out.join("\n"), said);
    assert.ok(out.every(line => line.length < 1000));
  });
}

test("A file and a task that are missing", () => {
  assert.deepStrictEqual(graded("1-call", "/none.asm"), {status: 1, out: ["FAIL  The text is assembled: /none.asm: No such file or directory"], said: ""});
  for (const words of [["9-none", START], ["1-call"], [], ["--jobs", "999", "1-call", START], ["1-call", START, "-"], [path.join(TOP, "docs"), START]]) {
    const {status, out, said} = graded(...words);
    assert.deepStrictEqual([status, out, said.split("\n").length], [1, [], 2], words.join(" "));
  }
});

test("Several texts side by side, in their order, in words and as JSON", () => {
  const files = [SOLUTION, "/none.asm", START, SOLUTION], {status, out} = graded("1-call", ...files);
  assert.deepStrictEqual([status, out[0], out[out.length - 1]], [1, SOLUTION + ": PASS  " + ASSEMBLES, "2 of 4 texts pass each check"]);
  const found = graded("--json", "1-call", ...files).out.map(line => JSON.parse(line));
  assert.deepStrictEqual(found.map(({file, passed, checks}) => [file, passed, checks.length]),
                         [[SOLUTION, true, 3], ["/none.asm", false, 1], [START, false, 3], [SOLUTION, true, 3]]);
  assert.deepStrictEqual(graded("--json", "--public", "1-call", SOLUTION).out.map(line => JSON.parse(line).checks.map(one => one.public)), [[true, true]]);
  assert.match(graded("--session", "1-call", START).out.join("\n"), /^VERSION 2\nLOAD U CALL 0\n[^]*DRAIN 0 100/);
});

test("A process that ends costs its file alone", async () => {
  const found = [];
  await sideBySide([path.join(WORK, "none"), "all"], [START, SOLUTION], 1, report => found.push(report));
  assert.deepStrictEqual(found.map(({file, passed}) => [file, passed]), [[START, false], [SOLUTION, false]]);
  assert.match(found[0].checks[0].said, /its process ended/);
});

const hasParallel = spawnSync("parallel", ["--version"]).status === 0;

test("Texts shared out by GNU parallel, with this machine as the other one", {skip: hasParallel ? false : "there is no parallel (Debian's package parallel)"}, () => {
  const copy = put("a copy.asm", fs.readFileSync(SOLUTION, "latin1")), files = [START, copy, "/none.asm"];
  const {status, out} = graded("--json", "--public", "--sshlogin", ":", "1-call", ...files);
  assert.deepStrictEqual([status, out.map(line => JSON.parse(line)).map(({file, passed}) => [file, passed])],
                         [1, [[START, false], [copy, true], ["/none.asm", false]]]);
  assert.ok(fs.existsSync(copy));
});

// Checks that ask for nothing that can be shown.
const MISTAKES = [
  ["TICK 0 1\n", /no line `;=` says what has to be shown/],
  [";= 1\n", /`;=` is after a line of DRAIN, EXAM/],
  ["; Slots: 8\nTICK 0 1\n;= -\n", /'8' is no octal number/],
  ["TYPE 0 1\n;= 1\n", /line 2 \(octal 2\): `;=` is after a line of/],
  [";! help\n", /`;!` is after a line `;=`/]];

test("A check that is wrong is refused by the place of the mistake", () => {
  for (const [text, said] of MISTAKES) assert.throws(() => checkOf("a.its", text, true), said);
  const verdict = (tail, text = LOOP) => verdictOf(runInModule, checkOf("a.its", tail, true), {checks: [], texts: new Map()}, text);
  assert.match(verdict("EXAM 0 NONE 1\n;= 1\n").said, /the job has no symbol NONE/);
  assert.match(verdict("EXAM 0 100 1\n;= 9\n").said, /`;= 9` is not words/);
  assert.match(verdict("; Jobs: * none.asm\nTICK 0 1\n;= -\n").said, /there is no text none.asm/);
  assert.match(verdict("SHOW A B C\n;= 1\n").said, /'SHOW A B C' is refused as NOFILE/);
  assert.match(verdict("STATE 1\n;= RUN\n").said, /is refused as NOJOB: there is no job in slot 1 now; LOAD has made jobs in slot 0/);
  assert.match(verdict("END\nTICK 0 1\n;= w\n").said, /line 3 \(octal 3\): this is after END/);
  assert.match(verdict("VERSION 2\nTICK 0 1\n;= w\n").said, /has to wait at the end of this line, and its last tick is `\*` \(line 2 of a.its\)/);
  assert.deepStrictEqual(verdict("STATE 0\n;= RUN at START\nTICK 0 1\n;= *\nDIR D\n;=\nEXAM 0 START 2\n;= 254000,,100 *\n").said, "");
});

test("The words and bytes that a check may ask for", () => {
  assert.deepStrictEqual(wordsWanted("5 -5 1,,2 * 777777777777"), ["000000000005", "777777777773", "000001000002", "*", "777777777777"]);
  assert.deepStrictEqual(bytesWanted('"a b" 15 "c"'), ["141", "40", "142", "15", "143"]);
  assert.deepStrictEqual([wordsWanted("8"), bytesWanted("x"), bytesWanted('"')], [null, null, null]);
  assert.strictEqual(notAssembled(runInModule, LOOP), "");
});
