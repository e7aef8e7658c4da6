// Lines that a person edits at a terminal: what each key does to the line, and that the terminal shows it.

import assert from "node:assert";
import {test} from "node:test";

import {Editor, END, GIVEN_UP, LINE, QUIT} from "../lib/editing.js";
import {Glass} from "../lib/glass.js";

const WORDS = ["STATE ", "STEP ", "STOP "];

/** An editor that begins a line, at a terminal of so many columns. */
function editor(columns = 40) {
  const one = new Editor("its> ", (before, word) => before ? [] : WORDS.filter(some => some.startsWith(word.toUpperCase())));
  one.glass = new Glass(columns, 5);
  one.glass.feed(one.begin(columns));
  return one;
}

/** Types keys, and checks after each that the terminal shows the line with its cursor. */
function type(one, keys) {
  for (const key of Buffer.from(keys)) {
    const {done} = one, written = one.key(key);
    assert.ok(!written.includes("\x1b"), keys);
    one.glass.feed(written);
    if (!one.done && !done) shows(one, keys);
  }
  return one;
}

/** The row of the cursor has the line, or a part of it that fits, and the cursor is at its place there. */
function shows(one, keys) {
  const {glass, text, at} = one, row = glass.cells[glass.y], shown = row.join("").trimEnd(), start = one.prompt.length;
  assert.strictEqual(shown.slice(0, start), one.prompt.slice(0, shown.length), keys);
  assert.strictEqual(row.slice(start, start + one.width).join("").trimEnd(), text.slice(one.first, one.first + one.width).join("").trimEnd(), keys);
  assert.strictEqual(glass.x, start + at - one.first, keys);
  assert.ok(glass.x < glass.columns, "the cursor is past the window: " + keys);
}

test("keys that are typed make a line", () => {
  const one = type(editor(), "exam 0 1 2\r");
  assert.deepStrictEqual([one.line, one.done, one.glass.lines()], ["exam 0 1 2", LINE, ["its> exam 0 1 2", "", "", "", ""]]);
  assert.strictEqual(type(editor(), "a\n").done, LINE);
});

test("each key of the keyboard does what it is for", () => {
  for (const [keys, line, at] of [
    ["ab\x7f", "a", 1], ["ab\b\b\b", "", 0], ["ab\x01c", "cab", 1], ["ab\x02\x02c", "cab", 1], ["ab\x01\x06c", "acb", 2], ["ab\x01\x05c", "abc", 3],
    ["ab\x01\x04", "b", 0], ["abcd\x02\x02\x0b", "ab", 2], ["abcd\x02\x02\x15", "cd", 0], ["ab cd\x17", "ab ", 3], ["ab cd \x17", "ab ", 3],
    ["ab cd\x17\x19\x19", "ab cdcd", 7], ["ab cd\x17\x0b\x19", "ab cd", 5], ["abc\x01\x0b\x19x", "abcx", 4], ["ab\x06\x06", "ab", 2],
    ["ab\x1b[Dc", "acb", 2], ["ab\x1b[D\x1b[D\x1b[D\x1b[Cc", "acb", 2], ["ab\x1b[Hc", "cab", 1], ["ab\x1bOH\x1bOFc", "abc", 3], ["ab\x1b[H\x1b[Fc", "abc", 3],
    ["ab\x1bODc", "acb", 2], ["ab\x01\x1bOCc", "acb", 2], ["ab\x01\x1b[8~c", "abc", 3], ["ab\x1b[1~c\x1b[4~d", "cabd", 4],
    ["ab\x1b[7~\x1b[3~", "b", 0], ["ab cd\x1bbx", "ab xcd", 4], ["ab cd\x1bb\x1bb\x1bfx", "abx cd", 3], ["ab cd\x01\x1bd", " cd", 0],
    ["ab cd\x1b\x7f", "ab ", 3], ["ab cd\x1b[1;5Dx", "ab xcd", 4], ["ab\x01\x1b[1;5C!", "ab!", 3], ["a\x1b[99Zb", "ab", 2], ["a\x1b[5~b", "ab", 2],
    ["a\x00\x1a\x13b", "ab", 2], ["\u00e9\x7fa\u20acb\x02\x02c", "ac\u20acb", 2]]) {
    const one = type(editor(), keys);
    assert.deepStrictEqual([one.line, one.at], [line, at], JSON.stringify(keys));
  }
});

test("a line ends", () => {
  for (const [keys, done] of [["abc\x03", GIVEN_UP], ["abc\x1c", QUIT], ["\x04", END], ["a\x7f\x04", END], ["a\x01\x04", ""], ["a\x04", ""]]) {
    assert.strictEqual(type(editor(), keys).done, done, JSON.stringify(keys));
  }
});

test("earlier lines come back", () => {
  const one = editor();
  for (const line of ["one", "two", "two", "", "three is longer"]) {
    type(one, line + "\r");
    one.glass.feed(one.begin(40));
  }
  assert.deepStrictEqual(one.history, ["one", "two", "three is longer"]);
  type(one, "dra");
  for (const [keys, line] of [["\x1b[A", "three is longer"], ["\x10", "two"], ["\x1bOA", "one"], ["\x1b[A", "one"], ["\x0e", "two"], ["\x1b[B", "three is longer"],
                              ["\x1bOB", "dra"], ["\x1b[B", "dra"]]) assert.strictEqual(type(one, keys).line, line);
  type(one, "\x1b[A\x7f\x7fs\r");
  assert.strictEqual(one.line, "three is longs");
  one.glass.feed(one.begin(40));
  type(one, "x\x03");
  assert.ok(!one.history.includes("x"));
});

test("a word is completed as far as all words are the same", () => {
  assert.strictEqual(type(editor(), "s\t").line, "ST");
  assert.strictEqual(type(editor(), "sto\t0").line, "STOP 0");
  const one = type(editor(), "st\t");
  assert.strictEqual(one.line, "ST");
  assert.strictEqual(type(one, "\t").line, "ST");
  assert.deepStrictEqual(one.glass.lines().slice(0, 3), ["its> ST", "STATE  STEP  STOP", "its> ST"]);
  assert.strictEqual(one.key(9).includes("STATE  STEP  STOP"), true);
  assert.deepStrictEqual(type(editor(16), "st\t\t").glass.lines().slice(0, 4), ["its> ST", "STATE  STEP", "STOP", "its> ST"]);
  assert.strictEqual(type(editor(18), "st\t\t").glass.lines()[1], "STATE  STEP  STOP");
  assert.strictEqual(editor().key(9), "ST");
  assert.strictEqual(type(editor(), "q").key(9), "\x07");
  assert.strictEqual(type(editor(), "state 0").key(9), "\x07");
});

test("of a line longer than the window the part with the cursor is shown", () => {
  for (const columns of [80, 20, 10, 7]) {
    const one = type(editor(columns), "0123456789abcdefghijklmnopqrstuvwxyz");
    assert.ok(one.glass.lines().slice(1).every(line => line === ""), "the line takes one row: " + one.glass.lines());
    assert.ok(one.glass.lines()[0].endsWith("z"));
    type(one, "\x01");
    assert.ok(one.glass.lines()[0].startsWith("its> 0".slice(0, columns)));
    type(one, "\x06".repeat(20) + "XY" + "\x02".repeat(15) + "Z\x04\x05\x0b\x15abc");
    assert.strictEqual(one.line, "abc");
  }
  const one = type(editor(20), "0123456789abcd");                // 14 characters fill the window, with the cursor after them
  assert.deepStrictEqual([one.first, one.glass.x, one.glass.lines()[0]], [0, 19, "its> 0123456789abcd"]);
  assert.deepStrictEqual([type(one, "e").first, one.glass.lines()[0]], [8, "its> 89abcde"]);
  assert.deepStrictEqual([type(one, "\x7f").first, one.glass.lines()[0]], [0, "its> 0123456789abcd"]);
  type(one, "efg\x01" + "\x06".repeat(14));
  assert.deepStrictEqual([one.first, one.glass.x], [0, 19]);
  assert.deepStrictEqual([type(one, "\x06").first, one.glass.x], [8, 12]);
});

test("lines of any keys are shown as they are", () => {
  const keys = ["a", "bc ", "\x7f", "\x01", "\x05", "\x02", "\x06", "\x0b", "\x15", "\x17", "\x19", "\x04", "\x1b[A", "\x1b[B", "\x1bb", "\x1bf", "\x1bd", "\t", "\u00e9"];
  let seed = 7;
  for (const columns of [9, 16, 40]) {
    const one = type(editor(columns), "an earlier line\r");
    one.glass = new Glass(columns, 5);
    one.glass.feed(one.begin(columns));
    for (let at = 0; at < 500; at += 1) {
      seed = (seed * 1103515245 + 12345) % 2 ** 31;
      const key = keys[Math.floor(seed / 65536) % keys.length];
      if (!(key === "\x04" && !one.text.length)) type(one, key);
    }
  }
});
