// The recorded cases of sessions/recorded, as the program answers them; and the removal of a job at an end of a link, which `verify` accepts.
// The program is a build of these sources if one is there, else the module of the page.

import assert from "node:assert";
import fs from "node:fs";
import path from "node:path";
import {test} from "node:test";

import {atHand, run} from "../lib/node/program.js";
import {TOP, engine, textOf} from "./shared.js";

const PROGRAM = atHand(), ask = PROGRAM ? (kind, input) => run([PROGRAM, kind], input) : (kind, input) => engine.call([kind], input);

for (const [kind, ending] of [["run", ".its"], ["asm", ".asm"], ["verify", ".txt"]]) {
  const names = fs.readdirSync(path.join(TOP, "sessions", "recorded")).filter(name => name.endsWith(ending));
  test("There are cases of " + kind, () => assert.ok(names.length));
  for (const name of names) {
    test("The case " + name, () => {
      const place = "sessions/recorded/" + name;
      assert.strictEqual(ask(kind, textOf(place)).output, textOf(place.slice(0, -ending.length) + ".out"));
    });
  }
}

const STATES = ["USER", "ENTERED", "PARSED", "ASKED", "HOLDING", "WAITING", "MOVING", "ENDING"];
// A session, the line before which the job is removed, and after how many of its ticks.
const PLACES = [
  ["30-removed-with-a-word-in-hand", "TICK 1 14\n", 12], ["30-removed-with-a-word-in-hand", "TICK 1 1\nPEEK 1\n", 12],
  ["31-removed-while-it-waits", "TICK 1 120\n", 80]];

test("A job is removed in each state of a call, and verify accepts what then follows", () => {
  const states = new Set();
  for (const [name, line, most] of PLACES) {
    const session = textOf("sessions/links/" + name + ".its"), at = session.indexOf(line), rest = session.slice(at + line.length);
    for (let ticks = 1; ticks <= most; ticks += 1) {
      const one = session.slice(0, at) + "TICK 1 " + ticks.toString(8) + "\nPEEK 1\n" + rest + "END\n", {status, output} = ask("run", one);
      assert.strictEqual(status, 0, one);
      assert.ok(output.includes("\nT 1 1-\n"), one);          // its slot is empty
      assert.match(ask("verify", one + output).output, /^YES /, one);
      for (const [, state] of output.matchAll(/^P 1 (\w+)/gm)) states.add(state);
    }
  }
  assert.deepStrictEqual([...states].sort(), STATES.sort());
});
