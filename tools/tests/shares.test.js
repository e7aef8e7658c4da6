// How turns are shared out among lines that may have made them: tools/lib/shares.js.

import assert from "node:assert";
import {test} from "node:test";

import {endsOf, shares, startsOf} from "../lib/shares.js";

// The same by trying all ways.
function tried(takers, ticks, at = 0) {
  if (!takers.length) return at === ticks.length ? [] : null;
  const [most, wanted] = takers[0];
  for (const count of wanted === null ? [1] : Array.from({length: most + 1}, (_, less) => most - less)) {
    const taken = ticks.slice(at, at + count);
    if (taken.length !== count || wanted !== null && !taken.every(one => one === wanted)) continue;
    const rest = tried(takers.slice(1), ticks, at + count);
    if (rest !== null) return [count, ...rest];
  }
  return null;
}

// All lists of so many of these things.
function lists(things, count) { return count ? lists(things, count - 1).flatMap(list => things.map(one => [...list, one])) : [[]]; }

test("The first and the last of turns that are alike", () => {
  const turns = [1, 1, 2, null, null, 1];
  assert.deepStrictEqual([startsOf(turns), endsOf(turns), startsOf([]), endsOf([])], [[0, 0, 2, 3, 3, 5], [2, 2, 3, 5, 5, 6], [], []]);
});

test("As by trying all ways", () => {
  const kinds = [[1, null], [1, 1], [2, 1], [3, 1], [2, 2]];
  for (const count of [0, 1, 2, 3]) {
    for (const takers of lists(kinds, count)) {
      for (const turns of [0, 1, 2, 3, 4]) {
        for (const ticks of lists([1, 2, null], turns)) assert.deepStrictEqual(shares(takers, ticks), tried(takers, ticks), JSON.stringify([takers, ticks]));
      }
    }
  }
});

test("Many", () => {
  const begun = process.cpuUsage();
  const takers = Array.from({length: 10000}, (_, at) => at % 2 ? [1, null] : [64, 1]);
  assert.strictEqual(shares(takers, Array(100000).fill(1)).reduce((sum, one) => sum + one, 0), 100000);
  assert.strictEqual(shares(Array(5000).fill([64, 1]), Array(64 * 5000 + 1).fill(1)), null);
  assert.ok(process.cpuUsage(begun).user < 5e6);
});
