// Parts of the page with a substitute for the document and for the worker: what is asked of the worker, the keys of the Terminal tab, what a screen
// shows, and the window of a long text.

import assert from "node:assert";
import {test} from "node:test";

import {byId, posted, settle, workers} from "./page_substitute.js";
import {texts} from "../page/texts.js";

const JOB = "LOAD U J 0\n100/ 254000000100\nGO 100\n";
texts.examples = [{name: "old.its", text: "VERSION 002\n" + JOB + "TICK 0 1\nEND\n"}, {name: "edit.its", text: JOB}];

const {program} = /** @type {any} */ (await import("../page/state.js"));
const {Program} = /** @type {any} */ (await import("../page/worker.js"));
const {Stopped} = /** @type {any} */ (await import("../page/dom.js"));
const {Wrong} = await import("../lib/words.js");
const {fields} = /** @type {any} */ (await import("../page/field.js"));
const {Screen} = /** @type {any} */ (await import("../page/screen.js"));
const {terminal, wireTerminal} = /** @type {any} */ (await import("../page/terminal.js"));

wireTerminal();

/** The questions that the page has put to the worker, each with its answer to come.
 * @type {{what: string, data: any, answer: (value: any) => void}[]} */
let asked = [];
program.ask = (/** @type {string} */ what, /** @type {any} */ data) =>
  new Promise(answer => { asked.push({what, data, answer: value => answer(value || {bytes: [], why: "waits", whole: data.text + data.lines.join("\n") + "\n"})}); });

/** A tab that is begun, in which nothing runs. */
async function begun(name = "edit.its") {
  Object.assign(terminal, {begun: false, isBusy: false, isStale: false, queue: []});
  asked = [];
  byId("terminal-example").value = name;
  byId("terminal-begin").happens("click", {});
  for (let time = 0; asked.length && time < 5; time += 1) {
    asked.splice(0).forEach(one => one.answer(undefined));
    await settle();
  }
}

test("What the worker answers", async () => {
  posted.length = 0;
  const own = new Program(), worker = workers[workers.length - 1], answers = (/** @type {object} */ said) => worker.onmessage({data: {id: posted[posted.length - 1].id, ...said}});
  const asks = async (/** @type {string} */ what) => {
    const one = own.ask(what, {text: "END\n"}, "Running");
    await settle();
    return one.then((/** @type {any} */ value) => [value], (/** @type {Error} */ problem) => problem);
  };
  while (!posted.length) await settle();
  assert.deepStrictEqual([posted[0].ask, new TextDecoder().decode(posted[0].bytes)], ["open", "module"]);
  answers({answer: true});
  for (const [said, wanted] of /** @type {[object, any][]} */ ([[{answer: 7}, [7]], [{wrong: "no such", isTrap: false}, Wrong], [{wrong: "trap", isTrap: true}, Error]])) {
    const asked = asks("run");
    await settle();
    assert.deepStrictEqual([posted[posted.length - 1].ask, posted[posted.length - 1].text], ["run", "END\n"]);
    answers({progress: "half"});
    assert.strictEqual([...own.waiting.values()][0].more, "half");
    answers(said);
    const found = await asked;
    if (Array.isArray(wanted)) assert.deepStrictEqual(found, wanted);
    else assert.strictEqual(found.constructor, wanted);
    assert.strictEqual(own.waiting.size, 0);
  }
});

test("What runs is shown after a while, and can be stopped", async () => {
  posted.length = 0;
  const own = new Program();
  while (!posted.length) await settle();
  workers[workers.length - 1].onmessage({data: {id: 1, answer: true}});
  const found = own.ask("run", {}, "Running").catch((/** @type {Error} */ problem) => problem);
  await settle();
  own.showBusy();
  assert.strictEqual(byId("busy").hidden, true);
  Object.assign([...own.waiting.values()][0], {since: performance.now() - 2500, more: "line 7"});
  own.showBusy();
  assert.strictEqual(byId("busy").hidden, false);
  assert.match(byId("busy-words").textContent, /^Running: 2\.\d s, line 7$/);
  const [before, count] = [own.worker, workers.length];
  own.stop();
  assert.ok(await found instanceof Stopped);
  assert.deepStrictEqual([own.worker === before, workers.includes(before), workers.length], [false, false, count]);
});

const KEYS = [
  [{key: "a"}, "141"], [{key: "A"}, "101"], [{key: " "}, "40"], [{key: "~"}, "176"], [{key: "Enter"}, "15"], [{key: "Backspace"}, "177"],
  [{key: "Escape"}, "33"], [{key: "c", ctrlKey: true}, "3"], [{key: "C", ctrlKey: true}, "3"], [{key: "@", ctrlKey: true}, "0"],
  [{key: "[", ctrlKey: true}, "33"], [{key: "\\", ctrlKey: true}, "34"], [{key: "]", ctrlKey: true}, "35"], [{key: "^", ctrlKey: true}, "36"],
  [{key: "_", ctrlKey: true}, "37"], [{key: "1", ctrlKey: true}, null], [{key: "a", altKey: true}, null], [{key: "a", metaKey: true}, null],
  [{key: "Tab"}, null], [{key: "é"}, null], [{key: "\x7f"}, null], [{key: "ArrowUp"}, null]];

for (const [event, byte] of KEYS) {
  test("The key " + JSON.stringify(event), async () => {
    await begun();
    byId("screen").happens("keydown", event);
    assert.deepStrictEqual(asked.map(({what, data}) => [what, data.lines]), byte === null ? [] : [["terminal", ["TYPE 0 " + byte]]]);
  });
}

test("Control-Z stops the job and looks at it", async () => {
  await begun();
  byId("screen").happens("keydown", {key: "z", ctrlKey: true});
  assert.deepStrictEqual(asked.map(({what, data}) => [what, data.text]), [["look", terminal.text + "PEEK 0\nSTOP 0\nSTATE 0\n"]]);
});

test("Keys that are typed meanwhile follow together, in their order and once", async () => {
  await begun();
  for (const key of "abcd") byId("screen").happens("keydown", {key});
  assert.deepStrictEqual(asked.map(({data}) => data.lines), [["TYPE 0 141"]]);
  const before = asked[0].data.text;
  asked[0].answer(undefined);
  await settle();
  assert.deepStrictEqual(asked.slice(1).map(({data}) => [data.text, data.lines]), [[before + "TYPE 0 141\n", ["TYPE 0 142", "TYPE 0 143", "TYPE 0 144"]]]);
  asked[1].answer(undefined);
  await settle();
  assert.deepStrictEqual([asked.length, terminal.queue, terminal.isBusy], [2, [], false]);
});

test("The jobs of a session of any version are run as version 2", async () => {
  await begun("old.its");
  assert.strictEqual(terminal.text.startsWith("VERSION 2\n" + JOB), true);
  assert.strictEqual(terminal.text.includes("TICK"), false);
  assert.strictEqual(terminal.text.includes("VERSION 002"), false);
});

for (const count of [0, 1, 999, 1000, 1001, 1999, 2000, 2001, 2500]) {
  test("The windows of a text of " + count + " lines", () => {
    const text = Array.from({length: count}, (_, at) => "; " + (at + 1) + "\n").join(""), field = fields.text;
    for (const line of [1, 2, 999, 1000, 1001, 1002, 2000, 2001, count, count + 1].filter(one => one >= 1 && one <= count + 1)) {
      field.put(text, line);
      const rows = field.area.value.split("\n"), first = Math.floor((line - 1) / 1000) * 1000;
      assert.strictEqual(field.text, text);
      assert.strictEqual(rows[0], first < count ? "; " + (first + 1) : "");
      assert.strictEqual(rows.length, field.after ? 1000 : count - first + 1);
      assert.strictEqual(field.lastLine(), field.linesBefore + rows.length);
      assert.ok(field.linesBefore < line && line <= field.lastLine(), "line " + line + " of " + count);
      assert.strictEqual(field.linesAfter, field.after.split("\n").length - 1);
    }
  });
}

/** @type {[string, string[], string][]} */
const SCREENS = [
  ["lines", ["a\r\nb", "c\r", "\n"], "a\nbc\n"],
  ["a return without a line feed, after which nothing is written over", ["ab\r", "c\rd\r\r\ne"], "ab\nc\nd\ne"],
  ["a line feed before its return", ["a\n\rb"], "a\nb"],
  ["rubouts", ["abc\b \b", "\b \bd"], "ad"],
  ["a backspace alone", ["abc\b\b", "x"], "axc"],
  ["backspaces at the left, and bells", ["\b\b\x07a\x07"], "a"],
  ["blanks and tabs", ["a \tb  "], "a \tb  "]];

for (const [what, texts, wanted] of SCREENS) {
  test("A screen shows " + what, () => {
    const screen = new Screen("fresh", () => {});
    for (const text of texts) screen.show(text);
    assert.strictEqual(byId("fresh-text").textContent, wanted);
    const letters = new Screen("letters", () => {});
    for (const letter of texts.join("")) letters.show(letter);
    assert.strictEqual(letters.text, wanted);
    letters.put("new");
    assert.strictEqual(byId("letters-text").textContent, "new");
  });
}

test("What only grows is added to the text of a screen: what is new alone is read out", () => {
  const added = /** @type {string[]} */ ([]), place = byId("read-text"), node = {data: "", appendData(/** @type {string} */ text) { node.data += text; added.push(text); }};
  Object.defineProperty(place, "textContent", {set(text) { node.data = text; }, get() { return node.data; }});
  place.firstChild = node;
  const screen = new Screen("read", () => {});
  for (const text of ["*lo", "gx", "\b \b", "in\r\n"]) screen.show(text);
  assert.deepStrictEqual([node.data, added], ["*login\n", ["*lo", "gx", "in\n"]]);
});

test("Keys of the field under a screen", () => {
  const pressed = /** @type {number[]} */ ([]), field = byId("field-keys");
  new Screen("field", (/** @type {number} */ byte) => pressed.push(byte));
  field.value = "aé\x1a~";
  field.happens("input", {});
  field.happens("keydown", {key: "Enter"});
  field.happens("keydown", {key: "b"});
  assert.deepStrictEqual([pressed, field.value], [[0o141, 0o32, 0o176, 0o15], ""]);
});
