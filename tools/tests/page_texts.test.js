// The texts of the page docs/its.html: one pack, which is unpacked before the page begins. And the beginning of the page's own scripts, with a
// substitute for the document and for the worker.

import assert from "node:assert";
import {readdirSync} from "node:fs";
import path from "node:path";
import {test} from "node:test";
import vm from "node:vm";

import {moduleInPage, storedPage, valueInPage} from "../lib/node/page.js";
import {TOP} from "../lib/node/program.js";
import {texts, withTexts} from "../page/texts.js";
import {textOf} from "./page.js";
import {GIVEN, byId, posted, settle} from "./page_substitute.js";

const PACK = JSON.stringify(valueInPage("texts"));

/** Gives the page a value that it is packed with.
 * @param {string} name
 * @param {string} value */
function give(name, value) { byId(name).textContent = GIVEN[name] = value; }

test("The texts of the page are those of the repository", async () => {
  give("texts", PACK);
  assert.strictEqual(await withTexts(() => "begun"), "begun");
  const textAt = (/** @type {string} */ name) => textOf(name.startsWith("system/") ? name : path.join("sessions", name));
  for (const {name, text} of texts.examples) assert.strictEqual(text, textAt(name), name);
  for (const [folder, kind] of [["sessions", ".its"], ["sessions", ".asm"], ["sessions/midas", ".mid"], ["system", ".asm"]]) {
    const own = readdirSync(path.join(TOP, folder)).filter(name => name.endsWith(kind)).map(name => path.join(folder, name).replace(/^sessions\//, ""));
    assert.deepStrictEqual(own.filter(name => !texts.examples.some(one => one.name === name)), []);
  }
  assert.deepStrictEqual(texts.tasks.map(one => one.name), readdirSync(path.join(TOP, "labs")).filter(name => /^\d/.test(name)).sort());
  assert.ok(texts.others.length && texts.others.every(one => one.transcript && texts.examples.some(({name}) => name === one.session)));
});

test("A pack that is damaged: the page says so, and does not begin", async () => {
  const {error} = console, said = /** @type {any[]} */ ([]);
  console.error = problem => said.push(problem);
  for (const pack of ["", '"!"', JSON.stringify(JSON.parse(PACK).slice(0, 400))]) {
    give("texts", pack);
    byId("alert").hidden = true;
    await assert.rejects(withTexts(() => assert.fail("begun")));
    assert.deepStrictEqual([byId("alert").hidden, byId("alert").textContent.length > 0], [false, true]);
  }
  console.error = error;
  assert.strictEqual(said.length, 3);
});

test("The scripts of the page as it is stored", async () => {
  const [core, begin] = [...storedPage().matchAll(/<script(?: id="core")?>\n([^]*?)\n<\/script>/g)].map(found => found[1]);
  for (const name of ["module", "packed"]) give(name, JSON.stringify(valueInPage(name)));
  give("texts", PACK);
  byId("alert").textContent = "";
  Object.assign(globalThis, {location: {hash: ""}});
  const parts = await vm.runInThisContext(core + "\n" + begin + "\nits");
  assert.strictEqual(parts.exampleOf("echo.its"), textOf("sessions/echo.its"));
  while (!posted.length) await settle();
  assert.deepStrictEqual([posted[0].ask, Buffer.from(posted[0].bytes)], ["open", Buffer.from(moduleInPage())]);
  assert.strictEqual(byId("alert").textContent, "");
});
