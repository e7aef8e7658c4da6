// The pieces in which jobs run while somebody sits at a console, and when they are at rest.

import assert from "node:assert";
import {test} from "node:test";

import {Runner, computes, holderOf, isResting, isSettled, movesWithin, nextMove, ticksIn, turnOf} from "../lib/turns.js";

const turn = (slot, letters) => ({slot, letters});

/** A sitting that answers from a list, and notes what it was given. */
class Script {
  constructor(version, turns = [], looks = []) {
    this.version = version;
    this.turns = turns;
    this.looks = looks;
    this.given = [];
  }

  async ticks(texts) {
    this.given.push(texts);
    return this.turns.shift();
  }

  async look() { return this.looks; }
}

test("a T line is a turn", () => {
  assert.deepStrictEqual(turnOf("T 12 2. 1* 10w"), turn(0o12, "..*" + "w".repeat(8)));
  assert.strictEqual(turnOf("T 137 2* 1. 10w").letters, "**.wwwwwwww");
});

test("turns are settled if the circle is closed and all wait", () => {
  const one = turn(0, "ww"), other = turn(3, "ww");
  for (const turns of [[], [one, one], [one, other, one]]) assert.ok(isSettled(turns));
  for (const turns of [[one], [one, other], [one, turn(3, "*w"), one], [turn(0, "*-")]]) assert.ok(!isSettled(turns));
  assert.ok(isResting([turn(0, "ww"), turn(1, "--")]));
  assert.ok(!isResting([turn(0, "ww"), turn(1, "*w")]));
});

test("a piece computes if a job had a whole turn without waiting", () => {
  const piece = {turns: [turn(0, "***"), turn(1, "..*")], output: [], isSettled: false};
  assert.deepStrictEqual([ticksIn(piece), computes(piece)], [6, true]);
  assert.ok(!computes({turns: [turn(0, "*w")], output: [], isSettled: false}));
});

test("pieces grow while jobs compute", async () => {
  const busy = [[turn(0, "**")], []], quiet = [[turn(0, "*w")], [120]], script = new Script(2, [busy, busy, busy, quiet, [[turn(0, "ww"), turn(0, "ww")], []]]);
  const runner = new Runner(script, 0), settled = [];
  for (let at = 0; at < 5; at += 1) settled.push((await runner.piece()).isSettled);
  assert.deepStrictEqual(script.given.map(([line]) => line), ["RUN 2 20", "RUN 2 40", "RUN 4 100", "RUN 10 100", "RUN 2 20"]);
  assert.deepStrictEqual(settled, [false, false, false, false, true]);
});

test("output may have made room, so the jobs are looked at once more", async () => {
  const runner = new Runner(new Script(2, [[[turn(0, "ww"), turn(0, "ww")], [120]]]), 0);
  assert.ok(!(await runner.piece()).isSettled);
});

test("a RUN has one turn more than jobs run", async () => {
  const runner = new Runner(new Script(2, [[[0, 1, 2, 0].map(slot => turn(slot, "*")), []], [[], []]]), 0);
  await runner.piece();
  assert.ok(runner.lines()[0].startsWith("RUN 4 "));
  assert.ok(runner.runs(2));
  await runner.piece();
  assert.ok(runner.nobody);
});

test("version 1 has TICK lines of the jobs that may run", async () => {
  const probes = Array.from({length: 0o100}, (_, slot) => "T " + slot.toString(8) + " 1" + ([0, 0o12].includes(slot) ? "*" : "-"));
  const runner = new Runner(new Script(1, [[[turn(0, "ww"), turn(0o12, "w-")], []]], probes), 0);
  await runner.wake();
  assert.deepStrictEqual(runner.lines(), ["TICK 0 20", "TICK 12 20"]);
  assert.ok((await runner.piece()).isSettled);
  assert.ok(!runner.runs(0o12));
});

test("a copy shows whether a job goes on within a time", async () => {
  for (const [looks, moves] of [[["T 0 20w", "T 0 20w"], false], [["T 0 4. 1* 13w"], true], [["? 7 RANGE"], false]]) {
    assert.strictEqual(await movesWithin(new Runner(new Script(2, [], looks), 0), 30), moves, looks);
  }
});

test("the time after which a job goes on is found", async () => {
  for (const due of [1, 2, 30, 1799, 1800]) {
    for (const guess of [0, 30]) {
      const script = new Script(2);
      script.look = async texts => [parseInt(texts[0].slice(6), 8) < due ? "T 0 20w" : "T 0 4. 1* 13w"];
      assert.strictEqual(await nextMove(new Runner(script, 0), 1800, guess), due);
    }
  }
  assert.strictEqual(await nextMove(new Runner(new Script(2, [], ["T 0 20w"]), 0), 1800, 30), 0);
});

test("who holds a console", () => {
  const consoles = new Map([[0, "0"], [1, "0"], [2, "3"]]), holder = (letters, isLinked) => holderOf(consoles, new Map(letters), 0, 0, isLinked);
  assert.strictEqual(holder([[0, "*"], [1, "w"], [2, "*"]]), "console 0 held by 0");
  assert.strictEqual(holder([[0, "w"], [1, "*"]]), "console 0 held by 1");
  assert.strictEqual(holder([[0, "w"]]), "console 0 held by another");
  assert.strictEqual(holder([[0, "*"]]), "console 0 free");
  assert.strictEqual(holder([]), "console 0");
  assert.strictEqual(holder([[0, "*"]], true), "console 0 free");
  for (const letters of [[[0, "w"]], [[0, "w"], [1, "*"]]]) assert.strictEqual(holder(letters, true), "console 0");     // slot 0 may wait at a link
});
