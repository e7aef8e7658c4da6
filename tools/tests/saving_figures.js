// Measures `save` for docs/COST.md. The word is the program. Writes for the largest checkpoint, and for sessions of a million lines, how many lines and
// bytes `run` and `save` write; the processor time of both in seconds, the best of three runs; and how many KB are resident at most.

import {spawn} from "node:child_process";
import {closeSync, openSync, readFileSync, writeSync} from "node:fs";
import path from "node:path";
import process from "node:process";

import {fullMachine} from "./full_machine.js";
import {folderOf, put} from "./shared.js";

const RUNS = 3, MILLION = 1 << 20, JOB = "LOAD U J -\n100/ 254000000100\nGO 100\n";
const program = path.resolve(process.argv[2]), folder = folderOf();

/** A session in a file: its lines are written one after the other.
 * @param {string} name
 * @param {Iterable<string>} lines */
function filed(name, lines) {
  const at = path.join(folder, name), file = openSync(at, "w");
  let some = "";
  for (const line of lines) {
    some += line + "\n";
    if (some.length > 65536) { writeSync(file, some); some = ""; }
  }
  writeSync(file, some);
  closeSync(file);
  return at;
}

/** A session of a million lines: a job, and then these lines again and again.
 * @param {string[]} lines */
function* million(lines) {
  const begin = JOB.trimEnd().split("\n");
  yield* begin;
  for (let at = begin.length; at < MILLION; at += 1) yield lines[at % lines.length];
}

/** The greatest number of KB that were resident in a process, as long as it is there.
 * @param {number} process */
function resident(process) {
  try { return Number(/^VmHWM:\s+([0-9]+) kB$/m.exec(readFileSync("/proc/" + process + "/status", "latin1"))?.[1] || 0); } catch (_) { return 0; }
}

/** Runs the program on a file: its status, its processor time in seconds, and what was resident at most.
 * @param {string} command
 * @param {string} session
 * @param {string} out
 * @returns {Promise<{status: number, seconds: number, most: number}>} */
function timed(command, session, out) {
  const source = openSync(session, "r"), sink = openSync(out, "w"), said = put("said", "");
  // the shell that waits says the time; the program has taken the place of a second shell, whose number it wrote
  const script = 'TIMEFORMAT="%U %S"; { time bash -c \'echo $$ >"$3"; exec "$1" "$2"\' - "$0" "$1" "$2"; } 2>"$2.time"';
  return new Promise(resolve => {
    const child = spawn("bash", ["-c", script, program, command, said], {stdio: [source, sink, "inherit"]});
    let most = 0;
    const watch = setInterval(() => { most = Math.max(most, resident(Number(readFileSync(said, "latin1")))); }, 2);
    child.on("close", status => {
      clearInterval(watch);
      closeSync(source);
      closeSync(sink);
      const seconds = readFileSync(said + ".time", "latin1").trim().split("\n").pop().split(" ").reduce((sum, one) => sum + Number(one), 0);
      resolve({status: Number(status), seconds, most});
    });
  });
}

const SESSIONS = /** @type {[string, Iterable<string>][]} */ ([
  ["the largest checkpoint", fullMachine()], ["a million lines, EXAM", million(["EXAM 0 100 1"])], ["a million lines, TICK of 64 ticks", million(["TICK 0 100"])]]);

for (const [name, lines] of SESSIONS) {
  const session = filed("session", lines);
  for (const command of ["run", "save"]) {
    const out = path.join(folder, command), found = [];
    for (let at = 0; at < RUNS; at += 1) found.push(await timed(command, session, out));
    const wrote = readFileSync(out, "latin1"), count = wrote.split("\n").length - 1;
    const seconds = Math.min(...found.map(one => one.seconds)), most = Math.max(...found.map(one => one.most)), {status} = found[0];
    const same = command === "save" && name === "the largest checkpoint" ? ", the same text: " + (wrote === readFileSync(session, "latin1")) : "";
    process.stdout.write(name + ": " + command + ", status " + status + ": " + count + " lines, " + wrote.length + " bytes, " + seconds.toFixed(2) + " s, " + most + " KB" + same + "\n");
  }
}
process.exit();
