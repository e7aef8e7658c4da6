// Keys by their names, the screen of somebody who sits at a console, and what terminfo says of terminals.

import assert from "node:assert";
import fs from "node:fs";
import {test} from "node:test";

import {Editor} from "../lib/editing.js";
import {caret, keyName, keyOf, visible} from "../lib/keys.js";
import {HungUp, Screen, Signalled, Signals} from "../lib/node/screen.js";
import {filled, meansIn, meansOf} from "../lib/node/terminfo.js";

const bytes = text => [...Buffer.from(text, "latin1")];

test("keys by their names", () => {
  for (const [text, code] of [["^Z", 0o32], ["^z", 0o32], ["^]", 0o35], ["^[", 0o33], ["^_", 0o37], ["^A", 1], ["q", 0o161], ["^", 0o136], ["^^", 0o36], ["\x7f", 127],
                              ["", null], ["ZZ", null], ["^ZZ", null], ["^1", null], ["^@", null], ["^`", null], ["\x80", null], ["\xe9", null], ["\0", null]]) {
    assert.strictEqual(keyOf(text), code, text);
  }
  assert.deepStrictEqual([0o32, 1, 0o37, 0o40, 0o177, 0o101].map(keyName), ["Control-Z", "Control-A", "Control-_", " ", "Rubout", "A"]);
  assert.deepStrictEqual([0o32, 0, 0o37, 0o40, 0o177, 0o101].map(caret), ["^Z", "^@", "^_", " ", "^?", "A"]);
});

test("no command of the terminal comes through", () => {
  const shown = visible(Array.from({length: 128}, (_, at) => at)), controls = [...new Set(bytes(shown).filter(byte => byte < 32 || byte > 126))];
  assert.deepStrictEqual(controls, [0o7, 0o10, 0o11, 0o12, 0o15]);
  assert.strictEqual(visible(bytes("a\x1b[31m\x01\x7f\r\n")), "a$[31m^A^?\r\n");
  assert.strictEqual(visible(bytes("a\0\x07\x1b[m\x01\x7f \x1f~")), "a\x07$[m^A^? ^_~");
});

/** A screen of so many columns and rows that keeps what is written. */
class Kept extends Screen {
  constructor(columns = 30, rows = 24) {
    super(true, new Signals());
    this.out = "";
    this.hasGone = false;
    this.now = [columns, rows];
  }

  put(text) {
    if (this.hasGone) throw new HungUp();
    this.out += text;
  }

  window() { return this.now; }

  written() {
    const {out} = this;
    this.out = "";
    return out;
  }
}

test("what jobs and the tool put out", () => {
  const screen = new Kept();
  screen.show(bytes("ab"));
  screen.say("two\nlines");
  screen.show([0]);
  assert.strictEqual(screen.written(), "ab\ntwo\nlines\n");
  screen.isRaw = true;
  screen.say("raw \u20ac \u{1f600}");
  screen.bell();
  assert.strictEqual(screen.written(), "raw ? ?\r\n\x07");
  for (const [output, start] of [["a", "\r\n"], ["a\r", ""], ["a\n", ""], ["a\b", "\r\n"]]) {
    screen.show(bytes(output));
    screen.written();
    screen.say("x");
    assert.strictEqual(screen.written(), start + "x\r\n");
  }
});

test("keys come until the interrupt key", async () => {
  const screen = new Kept();
  screen.take(Buffer.from("ab\xc3\x1acd", "latin1"));
  assert.ok(await screen.ready());
  assert.deepStrictEqual(await screen.keys(1, 0o32), [bytes("ab"), true]);
  assert.deepStrictEqual(await screen.keys(1, 0o32), [bytes("cd"), false]);
  assert.deepStrictEqual(await screen.keys(0, 0o32), [[], false]);
  assert.deepStrictEqual(await screen.keys(0.01, 0o32), [[], false]);
  screen.take(Buffer.from("\x7f\x80\xff~", "latin1"));              // a rubout is a key, and a byte above it is none
  assert.deepStrictEqual(await screen.keys(1, 0o32), [[127, 126], false]);
  screen.take(Buffer.from("x".repeat(40)));
  assert.deepStrictEqual([(await screen.keys(1, 0o32))[0].length, (await screen.keys(1, 0o32))[0].length], [32, 8]);
  const waiting = screen.keys(null, 0o32);
  setTimeout(() => screen.take(Buffer.from("\x1a")), 10);
  assert.deepStrictEqual(await waiting, [[], true]);
  screen.take(Buffer.from("y"));
  screen.inputEnded();
  assert.deepStrictEqual(await screen.keys(null, 0o32), [[121], false]);
  await assert.rejects(screen.keys(null, 0o32), HungUp);
});

test("keys that are too many wait in the terminal", async own => {
  const screen = new Kept(), calls = [];
  for (const name of ["pause", "resume"]) own.mock.method(process.stdin, name, () => calls.push(name));
  screen.take(Buffer.alloc(4095));
  assert.deepStrictEqual(calls, []);
  screen.take(Buffer.alloc(40));
  screen.take(Buffer.alloc(1));
  assert.deepStrictEqual(calls, ["pause"]);
  await screen.keys(0, 0o32);
  assert.deepStrictEqual(calls, ["pause"]);
  for (let at = 0; at < 2; at += 1) assert.strictEqual((await screen.keys(0, 0o32))[0].length, 32);
  assert.deepStrictEqual(calls, ["pause", "resume"]);
});

test("signals end a wait", async () => {
  const screen = new Kept();
  assert.ok(!await screen.ready());
  setTimeout(() => { screen.signals.isResized = true; screen.signals.wake(); }, 10);
  assert.deepStrictEqual(await screen.keys(null, 0o32), [[], false]);
  screen.signals.isResized = false;
  screen.signals.note("SIGTERM");
  await assert.rejects(screen.keys(null, 0o32), Signalled);
  assert.throws(() => screen.check(), Signalled);
  assert.strictEqual(screen.signals.caught, 15);
});

test("a line is edited, given up, and ends with the input", async () => {
  const screen = new Kept(), editor = new Editor("its> ", () => []);
  screen.take(Buffer.from("ex\x03exam \u20ac\rgo\r"));
  assert.strictEqual(await screen.line(editor), "exam \xe2\x82\xac");
  assert.strictEqual(screen.written(), "its> ex\r\nits> exam \xe2\x82\xac\r\n");
  assert.strictEqual(await screen.line(editor), "go");
  setTimeout(() => screen.signals.note("SIGINT"), 10);                 // a signal gives up a line as Control-C does
  setTimeout(() => screen.take(Buffer.from("on\r")), 20);
  assert.strictEqual(await screen.line(editor), "on");
  screen.take(Buffer.from("\x04"));
  assert.strictEqual(await screen.line(editor), null);
  screen.signals.note("SIGINT");                                       // no line is edited now, so this one ends the tool
  await assert.rejects(screen.line(editor), Signalled);
  screen.signals.caught = 0;
  screen.take(Buffer.from("\x1c"));
  await assert.rejects(screen.line(editor), Signalled);
  assert.strictEqual(screen.signals.caught, 3);
  screen.signals.caught = 0;
  screen.inputEnded();
  await assert.rejects(screen.line(editor), HungUp);
});

test("the status line is the last row", () => {
  const screen = new Kept(), means = {csr: "<r %p1%d %p2%d>", cup: "<m %p1%d %p2%d>", sc: "<s>", rc: "<b>", rev: "<v>", sgr0: "<n>", el: "<e>", cuu1: "<u>"};
  screen.means = means;
  screen.status("before");                                             // there is no status line yet
  screen.openStatus();
  assert.strictEqual(screen.written(), "\n<u><s><r 0 22><b><s><m 23 0><v>" + "before".padEnd(29) + "<n><b>");
  screen.status("x".repeat(40));
  assert.strictEqual(screen.written(), "<s><m 23 0><v>" + "x".repeat(29) + "<n><b>");
  screen.now = [40, 10];
  screen.signals.isResized = true;
  screen.openStatus();
  assert.strictEqual(screen.written(), "<s><r 0 8><b><s><m 9 0><v>" + "x".repeat(39) + "<n><b>");
  assert.ok(!screen.isResized && screen.hasStatus);
  for (const [columns, rows, has] of [[40, 4, true], [20, 4, true], [19, 4, false], [40, 3, false], [0, 0, false]]) {
    screen.now = [columns, rows];
    screen.openStatus();
    assert.strictEqual(screen.hasStatus, has, columns + " " + rows);
    if (!has) assert.ok(!screen.written().includes("<v>"));
    screen.written();
  }
  screen.now = [40, 24];
  screen.openStatus();
  screen.written();
  screen.now = [30, 3];
  screen.openStatus();                                                 // a window of so few rows has none
  assert.deepStrictEqual([screen.written(), screen.size], ["<s><r 0 2><m 2 0><e><b>", null]);
});

/** An entry of terminfo, with numbers of 16 bits or of 32 (term(5)). */
function entryOf(isWide, means) {
  const short = value => [value & 255, value >> 8 & 255], texts = [], offsets = [];
  for (let place = 0; place < 130; place += 1) {
    const text = means[place];
    offsets.push(...short(text === undefined ? 0xffff : texts.length));
    if (text !== undefined) texts.push(...Buffer.from(text + "\0", "latin1"));
  }
  const numbers = new Array(3 * (isWide ? 4 : 2)).fill(1), head = [isWide ? 0o1036 : 0o432, 5, 2, 3, 130, texts.length].flatMap(short);
  return Buffer.from([...head, ...Buffer.from("name\0"), 1, 0, 0, ...numbers, ...offsets, ...texts]);
}

test("entries of terminfo in both forms", () => {
  const means = {3: "csr", 10: "cup", 128: "sc", 126: "rc", 34: "rev", 39: "sgr0", 6: "el", 19: "cuu1"};
  for (const isWide of [false, true]) {
    const found = meansIn(entryOf(isWide, means));
    assert.deepStrictEqual(found, Object.fromEntries(Object.values(means).map(name => [name, name])));
    assert.strictEqual(meansIn(entryOf(isWide, {...means, 6: undefined})), null);
  }
});

test("what terminfo says of terminals", () => {
  const means = meansOf("xterm");
  assert.deepStrictEqual(["csr", "cup"].map(name => filled(means[name], 0, 22)), ["\x1b[1;23r", "\x1b[1;23H"]);
  assert.deepStrictEqual(["sc", "rc", "rev", "sgr0", "el", "cuu1"].map(name => filled(means[name])), ["\x1b7", "\x1b8", "\x1b[7m", "\x1b(B\x1b[m", "\x1b[K", "\x1b[A"]);
  for (const name of ["dumb", "none-such", "", "../x/xterm"]) assert.strictEqual(meansOf(name), null, name);
  for (const [text, numbers, told] of [["a%%b$<5/>c", [], "a%bc"], ["%i%p1%2d,%p2%03d", [0, 9], " 1,010"], ["%p1%{32}%+%c%p2%'!'%-%c", [33, 100], "AC"], ["%?%p1%t;%;", [1], ""]]) {
    assert.strictEqual(filled(text, ...numbers), told, text);
  }
  for (const entry of [Buffer.alloc(0), Buffer.alloc(40), Buffer.from("#!/bin/sh\n")]) assert.strictEqual(meansIn(entry), null);
  const xterm = ["/lib/terminfo/x/xterm", "/usr/share/terminfo/x/xterm"].find(name => fs.existsSync(name)), whole = fs.readFileSync(xterm);
  assert.ok(meansIn(whole));
  for (let size = 0; size < whole.length; size += 61) meansIn(whole.subarray(0, size));      // a part of an entry does no harm
});
