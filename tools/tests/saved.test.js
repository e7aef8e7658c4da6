// The page saves the system at a moment, and a session goes on from it: the lines up to a moment (tools/page/saving.js), what is found at the moments
// of a session that begins with the state part, and the buttons of the page (tools/page/saved.js). The program is the module of the page.

import assert from "node:assert";
import {test} from "node:test";

import {joined, split} from "../lib/session.js";
import {engine, textOf, told} from "./page.js";
import {byId, settle} from "./page_substitute.js";

const {Answers} = /** @type {any} */ (await import("../page/answers.js"));
const {Looks} = /** @type {any} */ (await import("../page/looks.js"));
const {linesUntil} = /** @type {any} */ (await import("../page/saving.js"));
const {page, program} = /** @type {any} */ (await import("../page/state.js"));
const {fields} = /** @type {any} */ (await import("../page/field.js"));
const {withImage} = /** @type {any} */ (await import("../page/assembly.js"));
const {wireSaved} = /** @type {any} */ (await import("../page/saved.js"));
const {terminal, wireTerminal} = /** @type {any} */ (await import("../page/terminal.js"));

const RUNS = "VERSION 2\n" + ["A", "B"].map(name => "LOAD U " + name + " -\n100/ 350000000200 254000000100\nGO 100\n").join("") + "RUN 3 3\nTICK 1 2\nRUN 2 2\nEND\n";

/** The moments of a session.
 * @param {string} session */
function momentsOf(session) { return new Looks((/** @type {string} */ text) => engine.run(text), "the session", told(session)); }

/** The lines up to each moment of a session.
 * @param {string} session */
function untilEach(session) {
  const {moments} = momentsOf(session);
  return moments.map((/** @type {any} */ _, /** @type {number} */ at) => linesUntil(told(session), moments, at));
}

test("The lines up to each moment: a RUN line stays one", () => {
  const ends = untilEach(RUNS).map((/** @type {string[]} */ lines) => lines.slice(7).join(", "));
  assert.deepStrictEqual(ends, ["", "", "", "", "RUN 1 1", "RUN 1 2", "RUN 1 3", "RUN 1 3, RUN 1 1", "RUN 1 3, RUN 1 2", "RUN 2 3", "RUN 2 3, RUN 1 1", "RUN 2 3, RUN 1 2", "RUN 3 3",
                                "RUN 3 3, TICK 1 1", "RUN 3 3, TICK 1 2", "RUN 3 3, TICK 1 2, RUN 1 1", "RUN 3 3, TICK 1 2, RUN 1 2",
                                "RUN 3 3, TICK 1 2, RUN 1 2, RUN 1 1", "RUN 3 3, TICK 1 2, RUN 2 2"]);
  assert.deepStrictEqual(untilEach("CLOCK 1\nLOAD U J -\nTICK 0 1\n"), [[], ["CLOCK 1"], ["CLOCK 1"]]);
});

for (const name of ["tour-run", "link", "alarm"]) {
  test("What is saved at each moment of " + name + " leads to the system of that moment", () => {
    const session = textOf("sessions/" + name + ".its"), looks = momentsOf(session);
    untilEach(session).forEach((/** @type {string[]} */ lines, /** @type {number} */ at) => {
      const saved = engine.answer("save", joined(lines)), states = [...looks.moments[at].jobs.keys()].map(slot => "STATE " + slot.toString(8) + "\n").join("");
      assert.strictEqual(engine.run(saved + states).transcript, split(engine.run(joined(lines) + states).transcript).slice(-states.split("\n").length + 1)
        .map(one => one + "\n").join(""), "moment " + at);
      assert.strictEqual(engine.answer("save", saved), saved);
    });
  });
}

test("What is saved knows whose turn is next", () => {
  for (const lines of untilEach(RUNS).slice(4)) {
    const [whole, rest] = [joined(lines), engine.answer("save", joined(lines))].map(text => split(engine.run(text + "RUN 2 1\n").transcript).slice(-2));
    assert.deepStrictEqual(rest, whole, lines.join(", "));
  }
});

test("An assembly text goes beside the jobs of a state part", () => {
  const image = "VERSION 2\nLOAD U NEW -\n100/ 1\nGO 100\nEND\n", own = image.split("\n").slice(1, 4);
  const state = ["JOB 0 U J -", "REGS RUN 100 0 0 0 0 0 0", "READY"];
  assert.deepStrictEqual(split(withImage(joined(["SYSTEM 1", ...state, "TICK 0 1"]), image, "U NEW")), ["SYSTEM 2", ...state, ...own, "TICK 0 1"]);
  assert.deepStrictEqual(split(withImage(joined(["VERSION 1", "LOAD U J -", "GO 0", "TICK 0 1"]), image, "U NEW")),
                         ["VERSION 2", "LOAD U J -", "GO 0", ...own, "TICK 0 1"]);
  assert.deepStrictEqual(split(withImage("", image, "U NEW")), ["VERSION 2", ...own, "RUN 20 40", "END"]);
});

test("The moments of a session that begins with the state part", () => {
  const session = textOf("sessions/tour-run.its"), before = momentsOf(session), [at, look] = [27, before.look(27)];
  const saved = engine.answer("save", joined(linesUntil(told(session), before.moments, at))), after = momentsOf(saved + "TICK 0 4\n");
  assert.deepStrictEqual(after.moments.map((/** @type {any} */ {line, made}) => [line, made]),
                         [[0, []], [split(saved).length, [0]], ...Array(4).fill([split(saved).length + 1, []])]);
  const {jobs, queues} = after.look(1);
  assert.deepStrictEqual([jobs.get(0).stateLine, jobs.get(0).pages, queues], [look.jobs.get(0).stateLine, look.jobs.get(0).pages, look.queues]);
  assert.strictEqual(after.view(1, []).jobs[0].instruction, before.view(at, []).jobs[0].instruction);
});

test("Save here, and Go on from here", async () => {
  const answers = new Answers(() => {}), session = textOf("sessions/tour-run.its"), asked = /** @type {string[]} */ ([]);
  answers.engine = engine;
  answers.run({name: "tour-run.its", text: session, texts: []});
  answers.steps();
  program.ask = async (/** @type {string} */ what, /** @type {any} */ data) => { asked.push(what); return what === "run" ? new Promise(() => {}) : answers[what](data); };
  wireSaved();
  byId("save-here").happens("click", {});
  await settle();
  assert.strictEqual(byId("alert").textContent, "Nothing is stepped through, so there is no moment to save.");
  Object.assign(page, {moment: 27, shown: {name: "tour-run.its", text: session, moments: answers.moments.moments}});
  byId("where").textContent = "Tick 26 of 40.";
  Object.assign(byId("saved"), {hidden: true});
  byId("save-here").happens("click", {});
  await settle();
  const saved = engine.answer("save", joined(linesUntil(told(session), answers.moments.moments, 27)));
  assert.deepStrictEqual([byId("saved").hidden, byId("saved-text").textContent, byId("alert").hidden], [false, saved, true]);
  assert.match(byId("saved-said").textContent, /^[0-9]+ \(octal [0-7]+\) lines make the system of this moment: Tick 26 of 40\.$/);
  byId("saved-close").happens("click", {});
  assert.strictEqual(byId("saved").hidden, true);
  byId("go-on-here").happens("click", {});
  await settle();
  assert.deepStrictEqual([fields.text.text, asked.pop(), page.moment], [saved, "run", 1]);
});

test("The terminal begins with the jobs of a state part", () => {
  fields.text.text = "SYSTEM 1\nJOB 2 U J -\n100/ 0\nREGS RUN 100 0 0 0 0 0 0\nJOB 1 U K 3\nREGS RUN 100 0 0 0 0 0 0\nREADY\nLOAD U L 0\nGO 100\nTICK 0 1\n";
  wireTerminal();
  byId("terminal-example").value = "";
  byId("terminal-begin").happens("click", {});
  assert.deepStrictEqual([terminal.text.split("\n").slice(0, 2), terminal.text.split("\n").slice(-4), terminal.console, terminal.slot],
                         [["SYSTEM 2", "JOB 2 U J -"], ["READY", "LOAD U L 0", "GO 100", ""], "3", "1"]);
});
