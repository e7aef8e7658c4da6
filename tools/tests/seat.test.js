// The seat at a console: how jobs run between keys, what is said of a job that does not run, and the status line.

import assert from "node:assert";
import {test} from "node:test";

import {BOUND, Clock, KEY, REST, Seat, frameOf, isInTransfer} from "../lib/seat.js";
import {peekOf, stateOf} from "../lib/transcript.js";
import {STATE} from "./terminal_substitute.js";

/** A seat whose jobs have turns with these letters. */
function seated(letters, {isReady = false, hasClock = false} = {}) {
  const noted = {said: [], status: [], bells: 0, typed: [], waits: [], opened: 0}, keys = [];
  const sitting = {version: 2, known: {clock: 0}, hasLinks: false, dropped: 0, reason: "NOJOB", found: null, word: "", answers: [], looked: [],
                   ticks: async () => [[{slot: 0, letters}, {slot: 0, letters}], []], state: async () => sitting.found, listed: async () => sitting.word,
                   type: async (console, some) => (noted.typed.push([console, some]), sitting.dropped), attempt: async () => ({reason: sitting.reason}),
                   look: async lines => (sitting.looked.push(lines), sitting.answers), clock: thirtieths => { sitting.known.clock += thirtieths; }};
  const screen = {hasStatus: false, isResized: false, show() {}, say: one => noted.said.push(one), status: one => noted.status.push(one), check() {},
                  openStatus: () => { noted.opened += 1; screen.isResized = false; }, bell: () => { noted.bells += 1; }, ready: async () => isReady,
                  keys: async (seconds, interrupt) => (noted.waits.push([seconds, interrupt]), keys.shift())};
  return {seat: new Seat(sitting, screen, {interrupt: 0o32, bound: 100, hasClock, slot: null}), sitting, screen, noted, keys};
}

test("jobs run until they wait, the bound is met or a key comes", async () => {
  for (const [letters, isReady, come] of [["ww", false, REST], ["**", false, BOUND], ["**", true, KEY]]) {
    assert.strictEqual(await seated(letters, {isReady}).seat.runOn(0), come, letters);
  }
  assert.strictEqual(await seated("**", {isReady: true}).seat.runOn(101), BOUND);        // keys wait until the jobs have had their time
  const {seat} = seated("*");
  for (const [come, seconds] of [[KEY, 0], [REST, null], [BOUND, null]]) assert.strictEqual(await seat.timeout(come), seconds);
});

test("with real time the jobs are looked after", async () => {
  const {seat, sitting} = seated("ww", {hasClock: true});
  assert.strictEqual(await seat.timeout(BOUND), 0.1);
  sitting.answers = ["T 0 20w"];
  assert.strictEqual(await seat.timeout(REST), 60);
  sitting.look = async ([line]) => [parseInt(line.slice(6), 8) < 30 ? "T 0 20w" : "T 0 1*"];
  assert.ok(Math.abs(await seat.timeout(REST) - 1) < 0.2);
});

test("the job is stopped by a key", async () => {
  const {seat, sitting} = seated("*");
  assert.strictEqual(await seat.stop(), "There is no job to stop.");
  seat.slot = 0;
  sitting.reason = "";
  sitting.found = {pc: "010000000105", symbol: "-"};
  sitting.word = "JRST 105";
  assert.strictEqual(await seat.stop(), "Control-Z: the job of slot 0 is stopped. It goes on at 105: JRST 105");
});

test("it is said once why a job does not run", async () => {
  const {seat, sitting} = seated("-");
  seat.slot = 0;
  sitting.found = {run: "STOP", pending1: "000000000003", pc: "010000000105", symbol: "-"};
  const said = "The job of slot 0 is stopped by BRK, a .BREAK and ILO, an illegal operation. It goes on at 105: no word is there";
  assert.strictEqual(await seat.stopped(), said);
  seat.runner.last = new Map([[1, "*"]]);
  assert.strictEqual(await seat.stopped(), "");
  seat.runner.last = new Map([[1, "*"], [0, "*"]]);
  assert.strictEqual(await seat.stopped(), "");
  seat.runner.last = new Map();
  sitting.found.pending1 = "000000000600";                       // bits that are not fatal
  assert.strictEqual(await seat.stopped(), "No job runs.");
  sitting.found = null;
  assert.strictEqual(await seat.stopped(), "The job of slot 0 is gone.");
  seat.slot = null;
  assert.strictEqual(await seat.stopped(), "No job runs.");
});

test("a person sits down at the console of a job", async () => {
  const {seat, sitting, noted} = seated("*");
  sitting.found = stateOf(STATE.split(" "));
  await seat.watch(0);
  assert.deepStrictEqual([seat.slot, seat.names, seat.runner.console, noted.said], [0, "U J", 3, []]);
  sitting.found = stateOf(STATE.replace("- 3", "- -").split(" "));
  await seat.watch(0o12);
  assert.deepStrictEqual([seat.runner.console, noted.said], [3, ["The job of slot 12 has no console; the terminal is console 3."]]);
  await seat.watch(null);
  assert.deepStrictEqual([seat.slot, seat.names, seat.runner.console], [null, "", 3]);
});

test("keys go to the console until the interrupt key comes", async () => {
  const {seat, screen, noted, keys} = seated("ww");
  seat.slot = 0;
  screen.isResized = true;
  keys.push([[97, 98], false], [[], false], [[99], true]);
  assert.strictEqual(await seat.attend(), "There is no job to stop.");
  assert.deepStrictEqual(noted.typed, [[0, [97, 98]], [0, [99]]]);
  assert.deepStrictEqual(noted.waits, new Array(3).fill([null, 0o32]));
  assert.strictEqual(noted.opened, 1);
});

test("the status line", async () => {
  const {seat, sitting, screen, noted} = seated("ww");
  Object.assign(seat, {slot: 0, names: "U J"});
  seat.runner.last = new Map([[0, "w"], [1, "-"]]);
  seat.runner.console = 3;
  await seat.showRunning(true);
  assert.deepStrictEqual(noted.status, []);                      // there is none
  screen.hasStatus = true;
  sitting.known.clock = 0o36;
  sitting.answers = ["P 0 WAITING 515764000000 1 - - -", "Y 0 0", "T 0 1*", STATE];
  await seat.showRunning(true);
  assert.deepStrictEqual(sitting.looked.pop(), ["PEEK 0", "TYPE 3 0", "TICK 0 1", "STATE 0"]);
  assert.strictEqual(noted.status.pop(), " slot 0 U J | WAITING in .IOT, 1 left | console 3 free | clock 36 | ^Z stops");
  await seat.showRunning(false);
  assert.deepStrictEqual(sitting.looked.pop(), ["PEEK 0", "STATE 0"]);
  assert.strictEqual(noted.status.pop(), " slot 0 U J | WAITING in .IOT, 1 left | console 3 free | clock 36 | goes on after a key");
  seat.runner.last = new Map([[0, "w"], [5, "w"]]);              // the job of the seat is looked at last
  sitting.answers = ["P 5 WAITING 515764000000 1 - - -", "P 0 WAITING 515764000000 1 - - -", "Y 0 0", "T 0 1w", "Y 0 0", "T 5 1*",
                     STATE.replace("S 0", "S 5"), STATE];
  await seat.showRunning(true);
  assert.deepStrictEqual(sitting.looked.pop(), ["PEEK 5", "PEEK 0", "TYPE 3 0", "TICK 0 1", "TYPE 3 0", "TICK 5 1", "STATE 5", "STATE 0"]);
  assert.strictEqual(noted.status.pop(), " slot 0 U J | WAITING in .IOT, 1 left | console 3 held by 5 | clock 36 | ^Z stops");
  seat.runner.last = new Map([[0, "w"]]);                        // a job that sleeps does not wait for the console
  sitting.answers = ["P 0 WAITING 635445456000 1 000000000036 - -", "Y 0 0", "T 0 1w", STATE];
  await seat.showRunning(true);
  assert.strictEqual(noted.status.pop(), " slot 0 U J | WAITING in SLEEP, 1 left | console 3 | clock 36 | ^Z stops");
  seat.lost = 0o12;
  sitting.answers = ["? 9 NOJOB"];
  await seat.showStopped();
  assert.strictEqual(noted.status.pop(), " slot 0 U J | no job | console 3 | clock 36 | go goes on | 12 keys lost");
});

test("keys that are lost ring", async () => {
  const {seat, sitting, noted} = seated("*");
  sitting.dropped = 2;
  await seat.type([97, 98]);
  await seat.type([99]);
  assert.deepStrictEqual([seat.lost, noted.bells], [4, 2]);
});

test("the clock counts thirtieths of a second", own => {
  let now = 5000;
  own.mock.method(performance, "now", () => now);
  const clock = new Clock();
  now += 1050;
  assert.deepStrictEqual([clock.due(), clock.due()], [31, 0]);
  assert.strictEqual(clock.until(30).toFixed(6), (61 / 30 - 1.05 + 0.001).toFixed(6));      // a little later, so that the time has gone by then
  now += 10000;
  assert.strictEqual(clock.until(30), 0.001);
  clock.skip();
  assert.deepStrictEqual([clock.due(), clock.until(30)], [0, 1.001]);
});

test("how far a job is inside a call", () => {
  const [waiting, entered, user] = ["P 0 WAITING 515764000000 1 - - -", "P 0 ENTERED - 10 - - -", "P 0 USER - 0 - - -"].map(line => peekOf(line.split(" ")));
  assert.strictEqual(frameOf(waiting, {run: "RUN"}), "WAITING in .IOT, 1 left");
  assert.strictEqual(frameOf(entered, {run: "STOP"}), "ENTERED, 10 left, stopped");
  assert.strictEqual(frameOf(user, {run: "STOP"}), "USER, stopped");
  assert.strictEqual(frameOf(undefined, undefined), "no job");
  assert.deepStrictEqual([waiting, entered, user, undefined].map(isInTransfer), [true, false, false, false]);
});
