// For the commands, in node: the tasks of labs/, and a text that is graded by one of them.

import {existsSync, readdirSync, statSync} from "node:fs";
import path from "node:path";

import {Engine, Trapped} from "../engine.js";
import {ASSEMBLES, graded, taskFrom} from "../grading.js";
import {Wrong} from "../words.js";
import {textOf} from "./command.js";
import {moduleInPage} from "./page.js";
import {TOP} from "./program.js";

/** @typedef {import("../grading.js").Task} Task */
/** @typedef {import("../grading.js").Verdict} Verdict */
/** @typedef {import("../whereabouts.js").Run} Run */

/** What is found of a file: whether each check passes, and what each finds.
 * @typedef {{file: string, passed: boolean, checks: Verdict[]}} Report */

const TEACHER = "teacher";        // the folder in a task that only those who teach have

/** The files of a folder with this ending, in the order of their names: the name and the text of each.
 * @param {string} folder
 * @param {string} ending
 * @returns {[string, string][]} */
function filesOf(folder, ending) {
  const names = existsSync(folder) ? readdirSync(folder).filter(name => name.endsWith(ending)).sort() : [];
  return names.map(name => [name, textOf(path.join(folder, name))]);
}

/** The folder of a task, by its path or its name in labs/.
 * @param {string} name
 * @returns {string} */
export function folderOf(name) {
  const found = [name, path.join(TOP, "labs", name)].find(one => existsSync(one) && statSync(one).isDirectory());
  if (!found) throw new Wrong(name + ": there is no such task; those of labs/ are " + readdirSync(path.join(TOP, "labs")).filter(one => /^\d/.test(one)).join(", "));
  return found;
}

/** The task in a folder: the public checks, and, unless these alone are wanted, the hidden ones that the folder has.
 * @param {string} folder
 * @param {boolean} onlyPublic
 * @returns {Task} */
export function taskOf(folder, onlyPublic) {
  const own = path.join(folder, TEACHER), checks = filesOf(folder, ".its");
  if (!checks.length) throw new Wrong(folder + ": there is no check in this folder, so it is no task");
  return taskFrom({checks, hidden: onlyPublic ? [] : filesOf(own, ".its"), texts: [...filesOf(folder, ".asm"), ...filesOf(own, ".asm")]});
}

/** @type {Engine | null} */
let engine = null;

/** The proved program, in the module of the page.
 * @type {Run} */
export function runInModule(kind, input) {
  engine = engine || new Engine(moduleInPage());
  return engine.answer(kind, input);
}

/** A report of a file that could not be graded.
 * @param {string} file
 * @param {string} said
 * @returns {Report} */
export function notGraded(file, said) {
  return {file, passed: false, checks: [{name: ASSEMBLES, file: "", isPublic: true, passed: false, said, session: ""}]};
}

/** What the checks of a task find of the text of a file.
 * @param {Task} task
 * @param {string} file
 * @returns {Report} */
export function reportOf(task, file) {
  try {
    const checks = [...graded(runInModule, task, textOf(file))];
    return {file, passed: checks.every(check => check.passed), checks};
  } catch (problem) {
    if (!(problem instanceof Wrong || problem instanceof Trapped)) throw problem;
    return notGraded(file, problem.message);
  }
}
