// A system of several people without sockets: what comes from terminals (tools/lib/telnet.js), rounds (tools/lib/system.js), and what of a session that
// was broken off is whole (tools/lib/resuming.js).

import assert from "node:assert";
import {test} from "node:test";

import {imageOf, systemLines, wordsOfProgram} from "../lib/beginning.js";
import {Bucket} from "../lib/desk.js";
import {restingIn, slotsThatCompute} from "../lib/resting.js";
import {countOfKind, hasEnded, wholeOf} from "../lib/resuming.js";
import {joined, linesOf, split} from "../lib/session.js";
import {System} from "../lib/system.js";
import {Telnet} from "../lib/telnet.js";
import {turnOf} from "../lib/turns.js";
import {octal} from "../lib/words.js";
import {engine, textOf} from "./page.js";
import {jobsOf} from "./people.js";

const IAC = 255, WILL = 251, WONT = 252, DO = 253, DONT = 254;
const codes = text => [...text].map(one => one.charCodeAt(0));

/** A job at console 0 that sleeps 36 (octal) thirtieths again and again, and puts out a dot each time. */
const SLEEPER = "VERSION 2\nLOAD U J 0\n100/ 043000000120 045700000000 201040000036 202040000140 043000000130 045700000000 040040000141 254000000102\n" +
  "120/ 400000000000 576045560000 005000000001 001000000001 400000000142\n130/ 400000000000 635445456000 400000000140\n" +
  "140/ 000000000000 000000000056 646471000000\nGO 100\n";

/** The lines of the job of an assembly text. */
function jobFrom(text) { return engine.answer("asm", text).replace("END\n", ""); }

/** A system whose rounds run in the module of the page, and whose time is what the test says. */
class Bench {
  constructor(begin, perSecond = 1000) {
    this.system = new System(perSecond);
    this.text = begin;
    this.now = 0;
    this.shown = "";
    this.rounds = 0;
    for (const line of split(begin)) this.system.given(line);
    this.told = split(engine.run(this.text).transcript);
    for (const answer of this.told) this.system.recalled(answer);
    this.system.begin(0);
  }

  /** Rounds until none is due before this time. */
  until(time) {
    for (;;) {
      const due = this.system.due(this.now);
      if (this.now + due > time) break;
      this.now += due;
      this.round();
      assert.ok((this.rounds += 1) < 500, "rounds without end: " + this.text.slice(-300));
    }
    this.now = time;
    return this.shown;
  }

  /** One round. */
  round() {
    this.text += joined(this.system.lines(this.now));
    const {transcript} = engine.run(this.text), answers = split(transcript).slice(this.told.length);
    assert.ok(!transcript.includes("?"), transcript.slice(-200));
    this.told.push(...answers);
    for (const [at, answer] of answers.entries()) {
      const {text, isLast} = this.system.took(answer);
      this.shown += text;
      assert.strictEqual(isLast, at === answers.length - 1, answer);
    }
  }
}

test("keys of terminals: lines, single keys, commands, options, bytes that are no keys", () => {
  const line = new Telnet(3);
  assert.deepStrictEqual(line.feed(codes("a\nb\r\nc\r\0d\r")), {keys: codes("a\rb\rc\rd\r"), answers: []});
  assert.deepStrictEqual(line.feed([10, 0, 0x80, 0xc3, 0xa9, 0x7f]).keys, [0, 0x7f]);         // the LF is of the CR before
  const keys = new Telnet(3);
  assert.deepStrictEqual(keys.feed([IAC, DO, 1, IAC, DO, 3, IAC, WILL, 3]), {keys: [], answers: []});
  assert.deepStrictEqual(keys.feed(codes("\n\r\n")).keys, [10, 13]);
  assert.deepStrictEqual(keys.feed([IAC, 244, IAC, 243, IAC, 247, IAC, 248, IAC, 241, 97]).keys, [26, 26, 127, 21, 97]);
  assert.match(String.fromCharCode(...keys.feed([IAC, 246]).answers), /console 3 of its/);
  assert.deepStrictEqual(keys.feed([IAC, WILL, 31, IAC, DO, 5, IAC, DONT, 1, IAC, DONT, 1, IAC, WONT, 31]).answers, [IAC, DONT, 31, IAC, WONT, 5, IAC, WONT, 1]);
  assert.deepStrictEqual(keys.feed([IAC, 250, 31, 0, IAC, IAC, 97, IAC, 240, 98]).keys, [98]);
});

test("what a terminal sends comes in any pieces", () => {
  const bytes = [97, 13, 10, IAC, DO, 1, 98, IAC, 250, 31, 65, IAC, 240, IAC, WILL, 200, IAC, IAC, 10, 13, 0, 99, IAC, 244], whole = new Telnet(0).feed(bytes);
  for (let at = 0; at <= bytes.length; at += 1) {
    const telnet = new Telnet(0), first = telnet.feed(bytes.slice(0, at)), second = telnet.feed(bytes.slice(at));
    assert.deepStrictEqual({keys: [...first.keys, ...second.keys], answers: [...first.answers, ...second.answers]}, whole);
  }
});

test("a session that is cut at any byte: whole lines and blocks are left, and the program refuses none", () => {
  const text = "VERSION 2\n" + "FILE D A B\n/ 1 2\nEOF\nLOAD U J 0\n100/ 254000000100\nGO 100\nTYPE 0 101\nRUN 2 10\nDRAIN 0 1\n";
  let longest = 0;
  for (let at = 0; at <= text.length; at += 1) {
    const whole = wholeOf(text.slice(0, at));
    assert.ok(text.startsWith(whole) && whole.length >= longest && !linesOf(whole).pop().block, JSON.stringify(whole));
    assert.strictEqual(engine.run(whole).status, 0);
    longest = whole.length;
  }
  assert.strictEqual(longest, text.length);
  assert.strictEqual(wholeOf("CLOCK 1\n\0\0\0\nCLOCK 2\n"), "CLOCK 1\n");
  assert.deepStrictEqual([hasEnded("CLOCK 1\nEND\n"), hasEnded("CLOCK 1\n"), hasEnded("END\n"), countOfKind("DIR A\nDIR B\nDRAIN 0 1\n", "DIR")], [true, false, true, 2]);
});

test("nobody has a step any more", () => {
  const resting = (...turns) => restingIn(turns.map(turn => turnOf("T " + turn)));
  assert.strictEqual(resting("0 1*", "1 4w", "2 4w"), null);             // 0 was not looked at again
  assert.deepStrictEqual([...resting("0 1*", "1 4w", "0 4w", "1 4w")], [1, 0]);
  assert.strictEqual(resting("0 4w", "1 4w", "0 4w", "1 1. 3w"), null);
  assert.deepStrictEqual([...resting()], []);
  assert.deepStrictEqual(slotsThatCompute(["0 4*", "1 4w", "2 2* 2.", "0 3* 1w", "3 4-"].map(turn => turnOf("T " + turn))), [2]);
});

test("a job that computes has more and more ticks, and the others their turns", () => {
  const bench = new Bench("VERSION 2\nLOAD U J -\n100/ 350000000200 254000000100\n200/ 0\nGO 100\n" + jobsOf("sessions/edit.its", [0]).replace("VERSION 2\n", ""), 10);
  bench.system.arrive(0);
  bench.until(1000);
  bench.system.press(0, codes("ab\r"));
  assert.strictEqual(bench.until(1100), "ab\r\nba\r\n");
  assert.ok(bench.rounds > 64 && bench.rounds < 90, String(bench.rounds));           // 64 at once, and 10 a second
  assert.ok(bench.text.includes("TICK 0 1000\nTICK 0 1000\nTICK 0 1000\nTICK 0 1000\nRUN 4 100\n"));
  const count = engine.run(bench.text + "EXAM 0 200 1\n").transcript.trim().split(" ").pop();
  assert.ok(parseInt(count, 8) > 50000, count);
});

test("so many at once, and so many a second", () => {
  const bucket = new Bucket(2, 10);
  assert.deepStrictEqual([bucket.take(0), bucket.take(0), bucket.take(0), bucket.wait(0), bucket.take(99), bucket.take(100)], [true, true, false, 100, false, true]);
});

test("keys are repeated, and then nothing is due", () => {
  const bench = new Bench(jobsOf("sessions/edit.its", [0, 5]));
  bench.system.arrive(0);
  bench.until(10);
  bench.system.press(0, codes("abc\r"));
  assert.strictEqual(bench.until(20), "abc\r\ncba\r\n");
  assert.strictEqual(bench.system.due(20), Infinity);
  assert.strictEqual(bench.system.arrive(0), "abc\r\ncba\r\n");            // who comes then sees it
});

test("more keys than a console holds wait, and none is lost", () => {
  const bench = new Bench(jobsOf("sessions/echo.its", [0])), text = "0123456789".repeat(30);
  bench.system.arrive(0);
  bench.system.press(0, codes(text));
  assert.strictEqual(bench.until(2000), text);
  assert.strictEqual(bench.system.due(2000), Infinity);
});

test("a job that takes no keys keeps them waiting, and uses no time", () => {
  const bench = new Bench("VERSION 2\nLOAD U J 0\n100/ 045700000000\nGO 100\n");
  bench.system.arrive(0);
  bench.system.press(0, new Array(500).fill(65));
  bench.until(5000);
  assert.strictEqual(bench.system.desks[0].keys.length, 500 - 64);
  assert.strictEqual(bench.system.due(5000), Infinity);
});

test("output waits in the console of a terminal that takes none", () => {
  const bench = new Bench(jobsOf("sessions/echo.its", [0]));
  bench.system.arrive(0);
  bench.until(10);
  bench.system.flow(0, false);
  bench.system.press(0, codes("x".repeat(200)));
  assert.strictEqual(bench.until(2000), "");
  bench.system.flow(0, true);
  assert.strictEqual(bench.until(4000), "x".repeat(200));
});

test("a job that waits until its output was shown goes on then", () => {
  const bench = new Bench(jobFrom(" JOB U J 0\n LOC 100\nSTART: .CALL O\n .BREAK 16,\n .IOT 1,[101]\n .CALL F\n .BREAK 16,\n .IOT 1,[102]\n .BREAK 16,\n" +
    "O: WORD 400000,,0\n SIXBIT OPEN\n WORD 5000,,1\n WORD 1000,,1\n WORD 400000,,TTY\nF: WORD 400000,,0\n SIXBIT FINISH\n WORD 401000,,1\nTTY: SIXBIT TTY\n GO START\n"));
  bench.system.arrive(0);
  assert.strictEqual(bench.until(500), "AB");
});

test("a job that logs out is not looked at", () => {
  const leaver = jobFrom(" JOB U L 1\n LOC 100\nSTART: .CALL O\n .BREAK 16,\n .IOT 1,2\n .CALL L\nO: WORD 400000,,0\n SIXBIT OPEN\n WORD 1000,,1\n WORD 400000,,TTY\n" +
    "L: WORD 400000,,0\n SIXBIT LOGOUT\n WORD 405000,,0\nTTY: SIXBIT TTY\n GO START\n"), bench = new Bench(SLEEPER + leaver.replace("VERSION 2\n", ""));
  for (const console of [0, 1]) bench.system.arrive(console);
  bench.until(500);
  bench.system.press(1, [65]);
  assert.strictEqual(bench.until(1150), ".");
  assert.ok(bench.text.includes("PEEK 0\n") && bench.text.includes("STATE 1\n"));
});

test("a sleeper goes on in time, also after a new start in its sleep", () => {
  const bench = new Bench(SLEEPER);
  bench.system.arrive(0);
  assert.strictEqual(bench.until(100), "");
  assert.deepStrictEqual([bench.until(990), bench.until(1150), bench.until(2250), bench.rounds < 30], ["", ".", "..", true]);
  const again = new Bench(bench.text);
  again.system.arrive(0);
  assert.deepStrictEqual([again.until(600), again.until(1100)], ["", "."]);
});

test("the clock moves each second if a job may have an alarm", () => {
  const bench = new Bench(textOf("sessions/alarm.its").replace(/\nTICK[^]*/, "\n").replace(/^(?!VERSION)/, "VERSION 2\n"));
  bench.until(3500);
  assert.ok(bench.system.clock >= 90 && bench.system.clock <= 105, octal(bench.system.clock));
  assert.ok(bench.system.due(3500) <= 1000);
});

test("the lines of a system: files, a list, and command jobs", () => {
  const image = imageOf("VERSION 2\nLOAD U J -\n000100/ 1 2\n000102/ 3\n000200/ 4\nSYM A 000100\nGO 000101\nEND\n");
  assert.deepStrictEqual(wordsOfProgram(image), ["000000000101", "000003000100", "1", "2", "3", "000001000200", "4", "000000000000", "410000000000", "000000000100"]);
  const text = systemLines(new Map([["HACTRN", image], ["P", image]])), {status, transcript} = engine.run(text + "SHOW SYS P BIN\nDIR SYS\n");
  assert.deepStrictEqual([status, split(transcript).slice(8, 10)], [0, ["W 637163000000 600000000000 425156000000 12", "/ 000000000101 000003000100 000000000001 000000000002 000000000003 000001000200 000000000004 000000000000"]]);
  const system = new System();
  for (const line of split(text)) system.given(line);
  for (const answer of split(transcript)) system.recalled(answer);
  assert.deepStrictEqual([...system.commands], [0, 1, 2, 3, 4, 5, 6, 7].map(console => [console, console]));
});
