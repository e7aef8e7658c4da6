// Two consoles of one system in the page (tools/page/consoles.js), and rounds (tools/lib/rounds.js): people
// at both consoles, with a substitute for the document. The program is the module of the page.

import assert from "node:assert";
import {readFileSync, readdirSync} from "node:fs";
import path from "node:path";
import {after, test} from "node:test";

import {moduleInPage} from "../lib/node/page.js";
import {TOP} from "../lib/node/program.js";
import {Rounds} from "../lib/rounds.js";
import {split} from "../lib/session.js";
import {counted} from "../lib/words.js";
import {system} from "./evening.js";
import {byId, elements} from "./page_substitute.js";
import {texts} from "../page/texts.js";
import {pause} from "./people.js";

const PATIENCE_MS = 20000;
const programs = readdirSync(path.join(TOP, "system")).filter(name => name.endsWith(".asm"));
texts.examples = programs.map(name => ({name: "system/" + name, text: readFileSync(path.join(TOP, "system", name), "latin1")}));

const {Answers} = /** @type {any} */ (await import("../page/answers.js"));
const {Stopped} = /** @type {any} */ (await import("../page/dom.js"));
const {fields} = /** @type {any} */ (await import("../page/field.js"));
const {act, program} = /** @type {any} */ (await import("../page/state.js"));
const {terminal} = /** @type {any} */ (await import("../page/terminal.js"));
const {seats, showSeats, wireSeats} = /** @type {any} */ (await import("../page/consoles.js"));

const answers = new Answers(() => {});
answers.open({bytes: moduleInPage()});

/** The questions to the worker so far, and what the next ones meet in place of an answer. */
const asked = /** @type {string[]} */ ([]), trouble = /** @type {(Error | null)[]} */ ([]);
program.ask = async (/** @type {string} */ what, /** @type {any} */ data) => {
  asked.push(what);
  await pause(0);
  const problem = trouble.shift();
  if (problem) throw problem;
  return what === "run" ? new Promise(() => {}) : answers[what](data);
};
/** The tabs that were chosen. */
const chosen = /** @type {string[]} */ ([]);
act.choose = (/** @type {string} */ tab) => {
  chosen.push(tab);
  showSeats(tab === "terminal");
};
wireSeats();
after(() => showSeats(false));           // nothing goes on after a test that fails

/** What a console shows. */
function shown(/** @type {number} */ console) { return byId("console-" + console + "-text").textContent; }

/** Waits until something holds. */
async function until(/** @type {string} */ what, /** @type {() => boolean} */ holds) {
  const end = Date.now() + PATIENCE_MS;
  while (!holds()) {
    if (Date.now() > end) throw new Error(what + ": " + JSON.stringify([shown(0).slice(-300), shown(1).slice(-300), byId("alert").textContent]));
    await pause(5);
  }
}

/** Presses keys at a console, and waits until it, or the other one, ends with a text. */
async function keys(/** @type {number} */ console, /** @type {string} */ text, /** @type {string} */ wanted, at = console) {
  for (const one of text) {
    byId("console-" + console).happens("keydown", one === "\r" ? {key: "Enter"} : one === "\x7f" ? {key: "Backspace"} : one < " " ?
      {key: String.fromCharCode(one.charCodeAt(0) + 96), ctrlKey: true} : {key: one});
  }
  await until(JSON.stringify(text) + " and then " + JSON.stringify(wanted), () => shown(at).endsWith(wanted));
}

/** Waits until all jobs wait. */
async function rest() {
  await until("all jobs wait", () => {
    const {system: own, rounds} = seats.running || {};
    return own && own.isSettled && !rounds.isBusy && own.due(performance.now()) === Infinity;
  });
}

/** What verify says of the session so far and its transcript. */
function verdict() { return answers.verify({session: seats.running.text + "END\n", transcript: seats.running.transcript}).answer; }

test("the system of the page is the one with which tools/timesharing begins", async () => {
  assert.strictEqual(byId("terminal-two").hidden, false);
  act.choose("terminal");
  assert.deepStrictEqual([byId("terminal-two").hidden, byId("terminal-one").hidden, terminal.begun], [true, false, true]);
  byId("two-consoles").happens("click", {});
  assert.deepStrictEqual([byId("terminal-two").hidden, byId("terminal-one").hidden], [false, true]);
  for (const console of [0, 1]) await until("the first words", () => shown(console) === "ITS, CONSOLE " + console + ". LOGIN NAME, HELP \n\n*");
  await rest();
  assert.strictEqual(seats.running.text.startsWith(system()), true);
  assert.match(byId("consoles-count").textContent, /^\d+ \(octal [0-7]+\) lines, clock [0-7]+$/);
  assert.strictEqual(byId("consoles-said").textContent, "All jobs wait.");
});

test("two people log in, talk and send mail, and verify accepts the whole session as it was seen", async () => {
  await keys(0, "login joe\r", "login joe\n\n*");
  await keys(1, "login ann\r", "login ann\n\n*");
  await keys(1, "who\r", "TTY0 JOE \nTTY1 ANN \n\n*");
  await keys(0, "talk ann\r", "talk ann\n^D LEAVES. \n");
  await keys(1, "talk joe\r", "talk joe\n^D LEAVES. \n");
  await keys(0, "are you there\r", "^D LEAVES. \nare you there\n", 1);
  await keys(1, "yes", "are you there\nyes", 0);
  byId("console-1-leave").happens("click", {});
  await until("joe is alone", () => shown(0).endsWith("THE OTHER HAS LEFT. \n\n*") && shown(1).endsWith("\n*"));
  await keys(0, "mail ann\r", "A DOT ALONE ENDS IT. \n\n");
  await keys(0, "see you\rat teb\x7fnine\r.\r", "see you\nnine  \n.\nSENT. \n\n*");
  await keys(1, "print mail box\r", "FROM JOE \nsee you\nnine\n\n\n*");
  await keys(0, "calc\r", "calc\n");
  await keys(0, "12", "12");
  byId("console-0-stop").happens("click", {});
  await until("CALC is stopped", () => shown(0).endsWith("STOPPED AT 000107\n*"));
  await keys(0, "cont\r+7=", "cont\n+7=21\n");
  await keys(0, "\x1a", "STOPPED AT 000107\n*");
  await keys(0, "exam number\r", "000106/ 201200000000\n\n*");
  await rest();
  assert.strictEqual(verdict(), "YES");
  for (const part of ["INT 0 0 1\n", "\nTYPE 1 171", "\nCLOCK ", "\nRUN ", "\nDRAIN 0 100\n"]) assert.ok(seats.running.text.includes(part), part);
});

test("the session and its transcript are taken out, and judged in the Verify tab", async () => {
  const {text, transcript} = seats.running;
  byId("consoles-verify").happens("click", {});
  await until("the verdict", () => byId("verdict").textContent.startsWith("YES: "));
  assert.deepStrictEqual([chosen.pop(), fields["verify-session"].text, fields["verify-transcript"].text], ["verify", text + "END\n", transcript]);
  assert.strictEqual(byId("verdict").textContent, "YES: this is a transcript of the session, of " + counted(split(transcript).length) + " lines.");
  byId("consoles-session").happens("click", {});
  await until("the Session tab", () => fields.text.text === text + "END\n");
  assert.strictEqual(chosen.pop(), "session");
});

test("while another tab is shown nothing runs, and the clock does not move", async () => {
  const {system: own} = seats.running, {clock} = own, count = asked.length;
  await pause(400);
  assert.strictEqual(asked.length, count);
  act.choose("terminal");
  await keys(0, "\r", "\n*");
  await rest();
  assert.ok(own.clock - clock < 9, "the clock moved by " + (own.clock - clock));
});

test("while all jobs wait nothing runs, and the clock of the next round has the time that went by", async () => {
  const {system: own} = seats.running, {clock} = own, count = asked.length;
  await pause(600);
  assert.strictEqual(asked.length, count);
  await keys(1, "\r", "\n*");
  await rest();
  assert.ok(own.clock - clock >= 18, "the clock moved by " + (own.clock - clock));
});

test("one console in place of two, and back: the system is the same", async () => {
  const {running} = seats;
  act.single();
  assert.deepStrictEqual([byId("terminal-two").hidden, running.rounds.isHeld], [true, true]);
  byId("two-consoles").happens("click", {});
  await keys(1, "calc\r1+1=", "1+1=2\n");
  assert.strictEqual(seats.running, running);
  await keys(1, "q", "\n*");
});

test("a job that computes is said to, and the other console is served", async () => {
  await keys(0, "kill\r", "\n*");
  await keys(0, "calc\r1", "calc\n1");
  await keys(0, "\x1adep 107 254000000107\rcont\r", "cont\n");
  await until("a job computes", () => byId("consoles-said").textContent === "A job computes.");
  await keys(1, "calc\r2+2=q", "2+2=4\n\n*");
  await keys(0, "\x1akill\r", "kill\n\n*");
  await until("all wait", () => byId("consoles-said").textContent === "All jobs wait.");
  assert.strictEqual(verdict(), "YES");
});

for (const problem of [new Stopped("Stopped."), new Error("the module met a fault")]) {
  test("after \"" + problem.message + "\" the next key goes on from the session so far", async () => {
    await rest();
    const {text} = seats.running;
    trouble.push(problem);
    byId("console-0").happens("keydown", {key: "x"});
    await until("the alert", () => byId("alert").textContent === problem.message && !seats.running);
    assert.strictEqual(seats.text, text);
    await keys(0, "\r", "\n*\n\n*");
    await keys(0, "who\r", "who\nTTY0 JOE \nTTY1 ANN \n\n*");
    assert.deepStrictEqual([byId("alert").hidden, seats.running.text.startsWith(text)], [true, true]);
    await rest();
    assert.strictEqual(verdict(), "YES");
  });
}

test("a system that is begun anew: what the one before still answers is not shown", async () => {
  const before = seats.running;
  byId("console-0").happens("keydown", {key: "z"});
  await pause(0);
  byId("consoles-begin").happens("click", {});
  await until("the new system", () => seats.running !== before && shown(0) === "ITS, CONSOLE 0. LOGIN NAME, HELP \n\n*");
  await rest();
  assert.deepStrictEqual([before.rounds.isHeld, shown(0).includes("z")], [true, false]);
  await keys(0, "who\r", "who\n\n*");
  assert.strictEqual(verdict(), "YES");
});

test("a full session takes no more keys, and can be taken out", async () => {
  await rest();
  seats.running.count = 50000;
  byId("console-0").happens("keydown", {key: "x"});
  await pause(50);
  const {text} = seats.running;
  assert.strictEqual(seats.running.rounds.isHeld, true);
  byId("console-0").happens("keydown", {key: "y"});
  await pause(50);
  assert.strictEqual(seats.running.text, text);
  seats.running.count = split(text).length;
});

test("what the browser has kept goes on: the mode, the session so far, and what was seen", async () => {
  const {text} = seats.running;
  act.choose("session");
  Object.assign(globalThis, {localStorage: {getItem: () => JSON.stringify({consoles: {isTwo: true, text}}), setItem() {}}});
  const again = /** @type {any} */ (await import("../page/consoles.js?again"));
  again.wireSeats();
  byId("console-0-text").textContent = "";
  again.showSeats(true);
  try {
    await until("what was seen", () => shown(0).endsWith("who\n\n*"));
    await keys(1, "who\r", "who\n\n*");
    assert.strictEqual(again.seats.running.text.startsWith(text), true);
  } finally {
    again.showSeats(false);
  }
});

test("the page has what the consoles ask for", () => {
  const html = readFileSync(path.join(TOP, "tools", "page", "page.html"), "utf8");
  const own = [...elements.keys()].filter(id => /^(console|terminal|one-|two-)/.test(id));
  assert.deepStrictEqual(own.filter(id => !html.includes('id="' + id + '"')), []);
  assert.ok(own.length > 15, String(own));
});

test("rounds that fail are held, and their host is told why", async () => {
  const failures = /** @type {string[]} */ ([]);
  const around = {keep: async () => {}, write() {}, read: async () => "? 3 NOJOB", told() {}, show() {}, done() {}, failed: (/** @type {Error} */ one) => failures.push(one.message)};
  const rounds = new Rounds(/** @type {any} */ ({due: () => 0, lines: () => ["EXAM 7 0 1"]}), around, () => 0);
  rounds.wake();
  await rounds.going;
  assert.deepStrictEqual([failures, rounds.isHeld, rounds.isBusy], [["the session is over: ? 3 NOJOB"], true, false]);
});

test("a round is shown after it is kept, and the next one waits until it is due", async () => {
  const noted = /** @type {string[]} */ ([]);
  let due = 0;
  const around = {keep: async () => { await pause(5); noted.push("kept"); }, write: (/** @type {string[]} */ lines) => noted.push(...lines), read: async () => "D 0 101",
                  told: () => noted.push("told"), show: (/** @type {number} */ _, /** @type {string} */ text) => noted.push(text), done: () => { due = 20; }, failed() {}};
  const rounds = new Rounds(/** @type {any} */ ({due: () => due, lines: () => ["RUN 1 1"], took: () => ({console: 0, text: "A", isLast: true})}), around, () => 0);
  try {
    rounds.wake();
    rounds.wake();
    await rounds.going;
    assert.deepStrictEqual(noted, ["RUN 1 1", "told", "kept", "A"]);
    due = 0;
    await until("the round that was due after 20 ms", () => noted.length === 8);
  } finally {
    rounds.hold();
  }
  await rounds.going;
  const {length} = noted;
  rounds.wake();
  await pause(60);
  assert.strictEqual(noted.length, length);
  due = 0;
  rounds.release();                      // a round begins at once
  rounds.hold();
  await rounds.going;
  assert.strictEqual(noted.length, length + 4);
});
