// For the commands, in node: many files graded side by side: by processes on this machine, or by GNU parallel on several.

import {fork, spawnSync} from "node:child_process";
import {mkdtempSync, rmSync, writeFileSync} from "node:fs";
import {tmpdir} from "node:os";
import path from "node:path";

import {Wrong} from "../words.js";
import {read, systemError} from "./command.js";
import {TOP} from "./program.js";
import {notGraded} from "./tasks.js";

/** @typedef {import("./tasks.js").Report} Report */

const SECONDS = 300;                     // a file may take no longer
const GRADER = path.join(TOP, "tools", "lib", "node", "grader.js");

/** Grades files one after the other in a process of its own, as long as there are some.
 * @param {Set<*>} children the processes that are there
 * @param {string[]} words of the process
 * @param {() => [number, string] | undefined} next a file with its number
 * @param {(at: number, report: Report) => void} done
 * @returns {Promise<void>} */
async function work(children, words, next, done) {
  for (let given = next(); given;) {
    const child = fork(GRADER, words, {stdio: ["ignore", "inherit", "inherit", "ipc"]});
    children.add(child);
    while (given) {
      const [at, file] = given, report = await answered(child, file);
      done(at, report || notGraded(file, "it could not be graded within " + SECONDS + " seconds, or its process ended"));
      given = next();
      if (!report) break;
    }
    child.kill();
    children.delete(child);
  }
}

/** What a process answers to a file; nothing if it ends or takes too long.
 * @param {*} child
 * @param {string} file
 * @returns {Promise<Report | null>} */
function answered(child, file) {
  return new Promise(resolve => {
    const late = setTimeout(() => resolve(null), 1000 * SECONDS), end = (/** @type {Report | null} */ report) => {
      clearTimeout(late);
      child.removeAllListeners();
      resolve(report);
    };
    child.on("message", (/** @type {Report} */ report) => end(report));
    child.on("exit", () => end(null));
    child.on("error", () => end(null));
    child.send(file);
  });
}

/** Grades files by so many processes. A report is given as soon as those of all files before it are.
 * @param {string[]} words of each process
 * @param {string[]} files
 * @param {number} jobs
 * @param {(report: Report) => void} take */
export async function sideBySide(words, files, jobs, take) {
  /** @type {Report[]} */
  const reports = [];
  let begun = 0, taken = 0;
  const next = () => begun < files.length ? /** @type {[number, string]} */ ([begun, files[begun++]]) : undefined;
  const done = (/** @type {number} */ at, /** @type {Report} */ report) => {
    reports[at] = report;
    for (; reports[taken]; taken += 1) take(reports[taken]);
  };
  /** @type {Set<*>} */
  const children = new Set();
  try {
    await Promise.all(Array.from({length: Math.min(jobs, files.length)}, () => work(children, words, next, done)));
  } finally {
    for (const child of children) child.kill();
  }
}

/** A copy of a file in a folder, or why there is none.
 * @param {string} folder
 * @param {string} file
 * @param {number} at
 * @returns {{copy: string, why: string}} */
function copied(folder, file, at) {
  const copy = path.join(folder, at + ".asm");
  try {
    writeFileSync(copy, read(file));
    return {copy, why: ""};
  } catch (problem) {
    if (!(problem instanceof Wrong)) throw problem;
    return {copy: "", why: problem.message};
  }
}

/** The reports of files that GNU parallel shares out among machines, by the files' paths. Copies on other machines are removed.
 * @param {string} machines
 * @param {string[]} words of the command before the file
 * @param {string[]} paths
 * @returns {Map<string, Report>} */
function reportsFrom(machines, words, paths) {
  const isFar = machines.split(",").some(one => !/^(\d+\/)?:$/.test(one)), far = isFar ? ["--transferfile", "{}", "--cleanup"] : [];
  const command = [path.join(TOP, "tools", "grade"), "--json", ...words, "{}"];
  const done = spawnSync("parallel", ["--null", "--sshlogin", machines, ...far, ...command],
                         {input: Buffer.from(paths.join("\0")), stdio: ["pipe", "pipe", "inherit"], maxBuffer: 2 ** 30});
  if (done.error && /** @type {*} */ (done.error).code === "ENOENT") throw new Wrong("there is no GNU parallel, which --sshlogin needs (Debian's package parallel)");
  if (done.error) throw systemError("parallel", done.error);
  return new Map(done.stdout.toString().split("\n").filter(line => line.startsWith("{")).map(reportIn).map(one => [one.file, one]));
}

/** Grades files on these machines by GNU parallel, which starts this command there for a copy of each.
 * @param {string} machines as --sshlogin of parallel takes them
 * @param {string[]} words of the command before the file
 * @param {string[]} files
 * @param {(report: Report) => void} take */
export function byParallel(machines, words, files, take) {
  const folder = mkdtempSync(path.join(tmpdir(), "its-grade-"));
  try {
    const copies = files.map((file, at) => copied(folder, file, at));
    const found = reportsFrom(machines, words, copies.filter(one => one.copy).map(one => one.copy));
    copies.forEach(({copy, why}, at) => take({...(found.get(copy) || notGraded(copy, why || "no machine answered")), file: files[at]}));
  } finally {
    rmSync(folder, {recursive: true, force: true});
  }
}

/** A report from the line of JSON that the command writes.
 * @param {string} line
 * @returns {Report} */
function reportIn(line) {
  const {file, passed, checks} = JSON.parse(line);
  return {file, passed, checks: checks.map((/** @type {*} */ one) => ({...one, isPublic: one.public, file: "", session: ""}))};
}
