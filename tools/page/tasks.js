// The page: a task in the Assembly tab: its page, its public checks, and what they find of the text. The text of each task is kept.

import {countOf, Wrong} from "../lib/words.js";
import {ASSEMBLES} from "../lib/grading.js";
import {setSource} from "./assembly.js";
import {alertOf, buttonOf, byId, element, on} from "./dom.js";
import {setSession} from "./editor.js";
import {fields} from "./field.js";
import {asked, isOwn, keepMore, kept, names} from "./keeping.js";
import {act, page, program, startOf, tasks} from "./state.js";
import {bodyOf, titleOf} from "./task_text.js";

/** @typedef {import("../lib/grading.js").Verdict} Verdict */
/** @typedef {import("./texts.js").PackedTask} PackedTask */

const LAST = 1e6;                        // a moment after each other one, so that the last one is shown

/** The task that is open, the name of the task of which the tab has the text, the number of the round in which it is graded, and whether one goes
 * on. */
const state = {task: /** @type {PackedTask | null} */ (null), of: "", round: 0, isGrading: false};
/** The reader's own texts by their tasks.
 * @type {Map<string, string>} */
const own = new Map();

/** Takes the text that is written for a task. */
function takeOwn() { if (state.of && isOwn("source")) own.set(state.of, fields.source.text); }

/** The name of the open task; nothing without one. */
export function taskName() { return state.task ? state.task.name : ""; }

/** A text of the task that may be read.
 * @param {[string, string]} file */
function fileShown([name, text]) {
  return element("details", "", element("summary", "", name), element("pre", "lines-of", text.trimEnd()));
}

/** The checks, none of which has been run. */
function showChecks() {
  if (!state.task) return;
  const names = state.task.checks.map(([file, text]) => (/^; Check: *(.*)$/m.exec(text) || ["", file])[1].trim());
  byId("verdicts").replaceChildren(...[ASSEMBLES, ...names].map(name => element("li", "", name)));
  byId("graded").textContent = "";
}

/** Shows the open task, or that there is none. */
function showTask() {
  const {task} = state;
  byId("task").hidden = !task;
  byId("source-bench").classList.toggle("tasked", Boolean(task));
  byId("tasks").value = taskName();
  if (!task) return;
  byId("task-title").textContent = titleOf(task.page);
  byId("task-said").replaceChildren(...bodyOf(task.page));
  byId("task-files").replaceChildren(...task.checks.map(fileShown), ...task.texts.filter(([name]) => name !== "start.asm").map(fileShown));
  showChecks();
}

/** Puts a text of a task into the tab, after a question if own work is there. Own work that is of no task and stays becomes that of a task
 * without one.
 * @param {PackedTask} task
 * @param {string} text
 * @param {string} what it is */
function put({name}, text, what) {
  if (fields.source.text === text) state.of = name;
  else asked("source", what, () => {
    own.delete(name);
    state.of = name;
    setSource(name + ".asm", text);
  }, () => { if (!state.of && !own.has(name)) state.of = name; });
}

/** Opens a task: the text that its reader has written for it, else that to begin with.
 * @param {string} name */
export function openTask(name) {
  const task = tasks.find(one => one.name === name);
  takeOwn();
  if (!task) {
    alertOf(new Wrong("There is no task " + name + ". The tasks are " + tasks.map(one => one.name).join(", ") + "."));
    return;
  }
  const before = own.get(name);
  stale();
  state.task = task;
  showTask();
  act.choose("assembly");
  put(task, before || startOf(task), before ? "your text of task " + name : "the text to begin task " + name + " with");
  act.keep();
}

/** Closes the task. Its text stays. */
function closeTask() {
  takeOwn();
  stale();
  state.task = null;
  showTask();
  act.keep();
}

/** What is found of a text is no longer so, since the text is another one. */
function stale() {
  state.round += 1;
  showChecks();
}

/** Shows what a check finds.
 * @param {number} at
 * @param {Verdict} verdict
 * @param {string} line */
function showVerdict(at, {passed, session, file}, line) {
  const {task} = state, item = byId("verdicts").children[at], name = task ? task.name + "-" + file : file;
  item.className = passed ? "passed" : "failed";
  item.textContent = line + " ";
  if (!session) return;
  item.append(buttonOf("Open its session", () => asked("text", "the session of this check", () => {
    act.choose("session");
    setSession(name, session).catch(alertOf);
    page.moment = LAST;
  })));
}

/** Says how many checks pass.
 * @param {number} passed
 * @param {number} count */
function sum(passed, count) {
  byId("graded").textContent = passed === count ? "Each of the " + countOf(count, "public check") + " passes. Hidden checks are with those who teach." :
    passed + " of " + countOf(count, "public check") + " " + (passed === 1 ? "passes" : "pass") + ".";
}

/** Grades the text, or stops that. */
async function grade() {
  const {task} = state;
  if (!task || state.isGrading) {
    stale();
    return;
  }
  stale();
  if (/\.mid$/i.test(names.source)) {
    alertOf(new Wrong("A text in MIDAS is not graded. Take the text that is made of it: it is shown as \"text made of MIDAS\"."));
    return;
  }
  const {round} = state;
  let passed = 0, at = 0;
  state.isGrading = true;
  byId("grade").textContent = "Stop";
  try {
    await program.ask("grade", {checks: task.checks, texts: task.texts, text: fields.source.text}, "Grading the text");
    for (let isMore = true; isMore && round === state.round; at += 1) {
      const {verdict, line} = await program.ask("gradeMore", {}, "Grading the text");
      isMore = Boolean(verdict);
      if (round !== state.round) return;
      if (!verdict) sum(passed, at);
      else showVerdict(at, verdict, line);
      passed += verdict && verdict.passed ? 1 : 0;
    }
  } catch (problem) {
    alertOf(problem);
  } finally {
    state.isGrading = false;
    byId("grade").textContent = "Grade it";
  }
}

/** Opens the task that was open when the page was left. */
export function restoreTask() {
  const {now, of, texts} = kept().tasks || {};
  for (const [name, text] of Object.entries(texts || {})) own.set(name, String(text));
  state.task = tasks.find(one => one.name === now) || null;
  state.of = of || "";
  showTask();
}

/** Lets the tasks act. */
export function wireTasks() {
  byId("tasks").replaceChildren(new Option("(none)", ""), ...tasks.map(({name}) => new Option(name, name)));
  on("tasks", "change", ({target}) => { if (target.value) openTask(target.value); else closeTask(); });
  on("grade", "click", grade);
  on("task-anew", "click", () => { if (state.task) put(state.task, startOf(state.task), "the text to begin with"); });
  on("task-close", "click", closeTask);
  act.assembled = stale;
  keepMore("tasks", () => {
    takeOwn();
    return {now: taskName(), of: state.of, texts: Object.fromEntries(own)};
  });
}
