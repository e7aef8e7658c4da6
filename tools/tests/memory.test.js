// The memory of the commands on long sessions, and what they say of those that are too long. A substitute for the program, which knows one
// job that jumps to itself, answers at once.

import assert from "node:assert";
import {spawn} from "node:child_process";
import fs from "node:fs";
import path from "node:path";
import {test} from "node:test";

import {LOOP, TOOLS, TOP, folderOf} from "./shared.js";

const MOST = 500 * 1024;         // in KB, of which node alone takes 50
const LINES = 200000;            // of a session

const top = folderOf({"crates.txt": ""}), long = path.join(top, "long.its"), ticks = path.join(top, "ticks.its");
for (const name of ["commands", "lib", "program", "proved", "unproved", "explain", "timeline", "disturb", "player"]) {
  fs.cpSync(path.join(TOOLS, name), path.join(top, "tools", name), {recursive: true});
}
fs.symlinkSync(path.join(TOP, "docs"), path.join(top, "docs"));
fs.mkdirSync(path.join(top, "crates", "its", "out"), {recursive: true});
fs.copyFileSync(path.join(TOOLS, "tests", "looping_program.py"), path.join(top, "crates", "its", "out", "its"));
fs.chmodSync(path.join(top, "crates", "its", "out", "its"), 0o755);
fs.writeFileSync(path.join(top, "measured.mjs"), `
import process from "node:process";
const [name, ...words] = process.argv.slice(2);
process.on("exit", () => process.stderr.write("\\nused " + process.resourceUsage().maxRSS + "\\n"));
process.argv = [process.argv[0], "/commands/" + name + ".js", ...words];
await import("./tools/commands/" + name + ".js");
`);
fs.writeFileSync(long, LOOP + "TICK 0 1\nEXAM 0 100 1\n".repeat(LINES / 2));
fs.writeFileSync(ticks, LOOP + "TICK 0 1000\n".repeat(20000) + "EXAM 0 100 1\n");

// How a command ends: its status, and what it says, with the memory that it has used.
function measured(words) {
  return new Promise(resolve => {
    const child = spawn(process.execPath, [path.join(top, "measured.mjs"), ...words], {stdio: ["ignore", "ignore", "pipe"]});
    let said = "";
    child.stderr.on("data", data => { said += data; });
    child.on("close", status => resolve({status, said, used: Number(/used ([0-9]+)/.exec(said)[1])}));
  });
}

// A session, the status, what is said, and the words.
const CASES = [
  [long, 0, "", "explain"], [long, 0, "", "timeline", "--lines", "100-200"], [long, 0, "", "disturb", "--to", "1"],
  [long, 0, "", "player", "--to", "200"], [long, 1, "narrow them by --from, --to or --slot", "disturb"],
  [long, 1, "narrow it by --lines A-B", "timeline"], [long, 1, "take a part by --from and --to", "player"],
  [ticks, 0, "", "timeline"], [ticks, 0, "", "explain"], [ticks, 1, "narrow them by --from, --to or --slot", "disturb"],
  [ticks, 1, "take a part by --from and --to", "player"]];

for (const [session, wanted, words, ...command] of CASES) {
  test(path.basename(session) + ": " + command.join(" ") + (words && ": " + words), async () => {
    const {status, said, used} = await measured([...command, session]);
    assert.deepStrictEqual([status, said.includes(words)], [wanted, true], said);
    assert.ok(used < MOST, used + " KB");
  });
}
