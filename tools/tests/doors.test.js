// One writing, two doors: what a command of tools/ writes is what the page shows, for all examples. The program of both is that in the page's
// module.

import assert from "node:assert";
import {readdirSync} from "node:fs";
import path from "node:path";
import {test} from "node:test";

import {verdictLine} from "../lib/grading.js";
import {moduleInPage} from "../lib/node/page.js";
import {TOP} from "../lib/node/program.js";
import {reportOf, taskOf} from "../lib/node/tasks.js";
import {Answers} from "../page/answers.js";
import {textOf, textsInPage} from "./page.js";
import {calledWith, put} from "./shared.js";

const answers = new Answers(() => {});
answers.open({bytes: moduleInPage()});

/** What a command writes, and its status.
 * @param {string} name
 * @param {...string} words */
async function command(name, ...words) {
  const {status, written} = await calledWith(name, words.map(word => word.startsWith("sessions/") ? path.join(TOP, word) : word));
  return {status, output: written.replaceAll(TOP + "/", "")};
}

const EXAMPLES = readdirSync(path.join(TOP, "sessions")), MIDAS = readdirSync(path.join(TOP, "sessions", "midas"));

for (const name of EXAMPLES.filter(one => one.endsWith(".its"))) {
  const file = path.join("sessions", name);
  test("explain and timeline of " + name + " are what the page shows", async () => {
    const {parts} = answers.run({name, text: textOf(file), texts: []}), own = parts.flatMap(part => JSON.parse(part.json));
    const said = (await command("explain", "--json", file)).output.trim().split("\n").map(line => JSON.parse(line));
    assert.deepStrictEqual(own, said);
    assert.strictEqual(answers.picture().svg, (await command("timeline", file)).output);
  });
}

for (const name of EXAMPLES.filter(one => one.endsWith(".asm"))) {
  test("listing of " + name + " is what the page shows", async () => {
    const file = path.join("sessions", name), made = answers.assemble({name: file, text: textOf(file), files: {}});
    assert.strictEqual(made.listing.join("\n") + "\n", (await command("listing", file)).output);
  });
}

for (const name of MIDAS.filter(one => one.endsWith(".mid"))) {
  test("midas of " + name + " is what the page shows", async () => {
    const file = path.join("sessions", "midas", name);
    assert.strictEqual(answers.assemble({name: file, text: textOf(file), files: {}}).plain, (await command("midas", file)).output);
  });
}

test("A transcript that is wrong: the page says what explain says", async () => {
  const session = textOf("sessions/first.its"), transcript = textOf("sessions/first.out").replace("2*", "1* 1.");
  const words = [put("a.its", session), put("a.out", transcript)], {output, status} = await command("explain", ...words);
  const plain = output.replaceAll(words[0], "the session").replaceAll(words[1], "the transcript").trim().split("\n");
  assert.strictEqual(status, 1);
  assert.deepStrictEqual(answers.verify({session, transcript}).why, plain);
});

/** The tasks that the page has. */
const TASKS = textsInPage().tasks;

/** What the page finds of a text by the checks of a task.
 * @param {{checks: [string, string][], texts: [string, string][]}} task
 * @param {string} text */
function gradedInPage({checks, texts}, text) {
  const found = [];
  answers.grade({checks, texts, text});
  for (let more = answers.gradeMore(); more.verdict; more = answers.gradeMore()) found.push({line: more.line, session: more.verdict.session});
  return found;
}

for (const task of TASKS) {
  test("grade: the page finds of texts of task " + task.name + " what the command finds", () => {
    const folder = path.join(TOP, "labs", task.name), checks = taskOf(folder, true);
    for (const name of ["start.asm", "teacher/wrong-1.asm", "teacher/solution.asm"]) {
      const file = path.join(folder, name), text = textOf(path.join("labs", task.name, name));
      const wanted = reportOf(checks, file).checks.map(one => ({line: verdictLine(one), session: one.session}));
      assert.deepStrictEqual(gradedInPage(task, text), wanted);
    }
  });
}

test("grade: the page writes what the command writes", async () => {
  const file = path.join("labs", "3-restart", "start.asm"), task = TASKS.find((/** @type {{name: string}} */ {name}) => name === "3-restart");
  const found = gradedInPage(task, textOf(file)), words = ["--public", "3-restart", path.join(TOP, file)], text = "MOVE\n";
  assert.strictEqual(found.map(one => one.line + "\n").join(""), (await command("grade", ...words)).output);
  assert.strictEqual(found.map(one => one.session).join(""), (await command("grade", "--session", ...words)).output);
  const lines = gradedInPage(task, text).map(one => one.line);
  assert.deepStrictEqual(lines, (await command("grade", "--public", "3-restart", put("wrong.asm", text))).output.trimEnd().split("\n"));
  assert.match(lines[1], /^FAIL {2}.*: not run, because the text is not assembled$/);
});

test("disturb: the page has the same runs", async () => {
  const file = "sessions/echo.its";
  answers.run({name: file, text: textOf(file), texts: []});
  const cells = [];
  for (let {left} = answers.disturb({way: "exam", settle: 128}); left;) {
    const more = answers.disturbMore();
    cells.push(...more.cells.filter(one => one.runs));
    left = more.left;
  }
  const rows = (await command("disturb", file)).output.split("\n").filter(line => /^ *\d+ +\d/.test(line));
  assert.deepStrictEqual(cells.map(one => [one.frame, String(one.left), one.differs ? "no" : "yes"]), rows.map(row =>
    /** @type {string[]} */ (/^ *\S+ +\d+ \(\d+\) +\S +(\S.*?) {2,}(\d+) +(yes|no)/.exec(row)).slice(1)));
});
