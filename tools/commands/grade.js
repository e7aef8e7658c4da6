// A command: grades assembly texts by the checks of a task.

import {cpus} from "node:os";
import path from "node:path";

import {verdictLine} from "../lib/grading.js";
import {Words, asJson, command, write} from "../lib/node/command.js";
import {byParallel, sideBySide} from "../lib/node/sharing.js";
import {folderOf, reportOf, taskOf} from "../lib/node/tasks.js";
import {shown} from "../lib/told.js";
import {Wrong} from "../lib/words.js";

/** @typedef {import("../lib/node/tasks.js").Report} Report */

const ABOUT = `
Grades assembly texts by the checks of a task.

    tools/grade 2-bytes my.asm
    tools/grade --json 2-bytes class/*.asm > results.json
    tools/grade --sshlogin :,lab1,lab2 2-bytes class/*.asm

TASK is a folder of labs/, or the path of another one. Each check gives a line, PASS or FAIL with the first difference. The checks in the folder
teacher of the task count if it is there, unless --public is given. Several texts are graded side by side on all processors, each with its
name before its lines. The status is 0 if each check of each text passes, else 1. labs/README.md says what a check is.

--json writes a line for each text: its file, whether all passed, and the checks with their names. --session writes the session of the first check
that fails, as it was run, for tools/explain or the page. --sshlogin lets GNU parallel share out the texts among machines, which are named
as its own --sshlogin names them; : is this one.
`;

const WORDS = new Words("grade", ABOUT, [
  {name: "--json", about: "write JSON, a line for each text"},
  {name: "--public", about: "only the checks that students see"},
  {name: "--session", about: "write the session of the first check that fails"},
  {name: "--jobs", takes: "N", whole: true, otherwise: 0, about: "so many processes (as many as there are processors)"},
  {name: "--sshlogin", takes: "LIST", otherwise: "", about: "machines for GNU parallel, with commas between them"},
  {name: "TASK", about: "a task of labs/, or the path of a folder"},
  {name: "FILE", about: "assembly texts; - for standard input, if it is the only one", many: true}]);

/** What is written of a report: of several, the file comes first.
 * @param {Report} report
 * @param {boolean} isJson
 * @param {boolean} isOne */
function said({file, passed, checks}, isJson, isOne) {
  const kept = checks.map(({name, isPublic, passed: own, said: why}) => ({name, public: isPublic, passed: own, said: why}));
  if (isJson) return asJson({file, passed, checks: kept}) + "\n";
  return checks.map(check => shown((isOne ? "" : file + ": ") + verdictLine(check)) + "\n").join("");
}

/** Grades the texts.
 * @param {string[]} given */
export async function main(given) {
  const {json, public: onlyPublic, session, jobs, sshlogin, task: name, file: files} = WORDS.values(given);
  if (jobs < 0 || jobs > 256) throw new Wrong("--jobs is 0 to 256");
  if (files.length > 1 && files.includes("-")) throw new Wrong("- is for one text alone");
  const folder = path.resolve(folderOf(name)), task = taskOf(folder, onlyPublic);
  let passing = 0, count = 0;
  const take = (/** @type {Report} */ report) => {
    const failing = report.checks.find(check => check.session);
    count += 1;
    if (report.passed) passing += 1;
    write(session ? (failing ? failing.session : "") : said(report, json, files.length === 1));
  };
  if (sshlogin) byParallel(sshlogin, [...(onlyPublic ? ["--public"] : []), folder], files, take);
  else if (files.length === 1) take(reportOf(task, files[0]));
  else await sideBySide([folder, onlyPublic ? "public" : "all"], files, jobs || cpus().length, take);
  if (count > 1 && !json && !session) write(passing + " of " + count + " texts pass each check\n");
  return passing === count ? 0 : 1;
}

command("grade", main);
