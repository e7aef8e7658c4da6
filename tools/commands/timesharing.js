// A command: serves the eight consoles of a system over TCP, to several people at once.

import {existsSync, readdirSync} from "node:fs";
import path from "node:path";
import process from "node:process";

import {systemOf} from "../lib/beginning.js";
import {Words, command, textOf, write} from "../lib/node/command.js";
import {Living} from "../lib/node/living.js";
import {TOP, program, run} from "../lib/node/program.js";
import {Folder} from "../lib/node/folder.js";
import {MOST_LINES, Service} from "../lib/node/service.js";
import {countOfKind} from "../lib/resuming.js";
import {split} from "../lib/session.js";
import {Over, withoutEnd} from "../lib/sitting.js";
import {NO_SHOW, System} from "../lib/system.js";
import {Wrong, octal} from "../lib/words.js";
import {assembled} from "./terminal.js";

const ABOUT = `
Serves the eight consoles of a system over TCP, to several people at once: what they type becomes lines of one session.

    tools/timesharing /tmp/mine
    telnet 127.0.0.1 8230

FOLDER keeps the session, session.its, which is added to before anything of it is shown. Started again, the session is run again and goes on where
it was. If there is no session yet, it begins with the lines of FOLDER/start.its; without this file with the programs of system/, and a command
job at each console. Meanwhile the operator may type who, and stop C: Control-Z is pressed at console C.

Console 0 is at the port P, console 1 at P + 1, and so on. There are no passwords: without --address only this machine is served. Control-C
stops the system (docs/TIMESHARING.md).
`;
const PORT = 8230, ROUNDS = 15;
const PROGRAMS = path.join(TOP, "system");
const MOST_LINE = 100;                   // bytes of a line of the operator
const MANY = 1000;                       // lines of a transcript that are kept at once

const WORDS = new Words("timesharing", ABOUT, [
  {name: "FOLDER", about: "the folder of the system, which is made if there is none"},
  {name: "--port", takes: "P", whole: true, otherwise: PORT, about: "the port of console 0 (" + PORT + "); 0 is any port for each console"},
  {name: "--address", takes: "A", otherwise: "127.0.0.1", about: "the address that is served (127.0.0.1)"},
  {name: "--rounds", takes: "N", whole: true, otherwise: ROUNDS,
   about: "so many rounds a second go on for long: those of jobs that compute, and those of the keys of one console (" + ROUNDS + ")"},
  {name: "--check", about: "keep the transcript, session.out, and verify it at the end"},
  {name: "--verify", about: "verify the session and the transcript of FOLDER, and serve nobody"}]);

/** The lines with which a system begins: those of its folder, or the programs of system/.
 * @param {string} its
 * @param {string} folder */
export function beginningOf(its, folder) {
  const name = path.join(folder, "start.its");
  if (!existsSync(name)) return systemOf(textsIn(PROGRAMS), (own, text) => assembled(its, own, text));
  const [text] = withoutEnd(textOf(name));
  if (!/^ *VERSION +0*2 *\n/.test(text)) throw new Wrong(name + ": its first line has to be VERSION 2, because jobs have turns by RUN");
  return text;
}

/** The assembly texts of a folder, each with the name of its file.
 * @param {string} folder
 * @returns {[string, string][]} */
export function textsIn(folder) {
  return readdirSync(folder).filter(name => name.endsWith(".asm")).map(name => [name, textOf(path.join(folder, name))]);
}

/** Runs the session so far, again if it was run before: what it shows is kept in mind.
 * @param {System} system
 * @param {Living} living
 * @param {Folder} folder
 * @param {string} text */
export async function rerun(system, living, folder, text) {
  const before = folder.toldBefore(), kept = [];
  let at = 0, left = countOfKind(text, "DIR") + 1;
  for (const line of split(text)) system.given(line);
  folder.beginTranscript();
  folder.add([NO_SHOW]);
  living.write([...split(text), NO_SHOW]);
  while (left) {
    const answer = await living.read();
    if (answer.startsWith("?")) throw new Wrong(folder.session + ": a line is refused: " + answer + " (tools/explain says why)");
    if (at < before.length && before[at] !== answer) {
      throw new Wrong(folder.transcript + ": line " + (at + 1) + " is not what the program answers now; move the file away to go on");
    }
    at += 1;
    system.recalled(answer);
    if (answer.startsWith("R ")) left -= 1;
    if (kept.push(answer) >= MANY || !left) folder.told(kept.splice(0));
  }
}

/** Whether the transcript of a folder is one of its session: what is said, and the status.
 * @param {string} its
 * @param {Folder} folder
 * @returns {[string, number]} */
export function verified(its, folder) {
  const [text] = withoutEnd(textOf(folder.session));
  const {output, problem} = run([its, "verify"], text + "END\n" + textOf(folder.transcript));
  if (problem) return [folder.path + ": the transcript is not verified: " + problem, 1];
  return [folder.path + ": verify says " + output.trim(), output.startsWith("YES") ? 0 : 1];
}

/** Obeys a line of the operator, who types at the host: what is said.
 * @param {Service} service
 * @param {string} line */
export function operated(service, line) {
  const [verb, console] = line.trim().split(/ +/), at = Number(console);
  if (verb === "who") {
    return service.clients.map((client, one) => "console " + octal(one) + ": " + (client ? "somebody" : "nobody") + "\n").join("") +
           "the session has room for " + service.left + " more lines\n";
  }
  if (verb === "stop" && /^[0-7]$/.test(console || "")) {
    service.interrupt(at);
    return "";
  }
  return verb ? "who, or stop and a console: Control-Z is pressed there\n" : "";
}

/** Reads the lines of the operator.
 * @param {Service} service */
function attend(service) {
  let part = "";
  process.stdin.on("error", () => {});
  process.stdin.on("data", (/** @type {Buffer} */ data) => {
    const lines = (part + data.toString("latin1")).split("\n");
    part = (lines.pop() || "").slice(0, MOST_LINE);
    for (const line of lines) write(operated(service, line));
  });
  service.over.then(() => process.stdin.destroy());
}

/** Serves the consoles until a signal comes, or the session is over.
 * @param {Service} service
 * @param {Record<string, *>} words */
async function served(service, words) {
  const ports = await service.listen(words.port, words.address);
  process.removeAllListeners("SIGINT");
  for (const signal of ["SIGINT", "SIGTERM", "SIGHUP"]) process.on(signal, () => service.stop(""));
  write(ports.map((port, console) => "console " + octal(console) + ": telnet " + words.address + " " + port + "\n").join(""));
  if (!process.env.ITS_NO_INPUT) attend(service);
  await service.over;
}

/** What is said when the session of a folder is full.
 * @param {Folder} folder */
function fullText(folder) {
  return folder.path + ": its session is full, and has ended; nothing is lost. Start tools/timesharing again: it puts the session away and begins a new system, " +
         "without its files (docs/TIMESHARING.md, \"A full session\", says how to bring them there)";
}

/** Serves a folder, or verifies it.
 * @param {string[]} given
 * @param {number} [most] lines of a session */
export async function main(given, most = MOST_LINES) {
  const words = WORDS.values(given), folder = new Folder(words.folder, words.check), its = program();
  if (words.rounds < 1) throw new Wrong("--rounds is 1 or more");
  if (words.verify) return reported(verified(its, folder));
  folder.take();
  const living = new Living(its, async () => { throw new Over("no copies are run"); }), system = new System(words.rounds);
  let isFull = false;
  try {
    let text = folder.begun();
    if (folder.away) write(folder.path + ": its session had ended, and is " + folder.away + " now; a new system begins, without its files\n");
    if (!text) folder.begin(text = beginningOf(its, words.folder));
    await rerun(system, living, folder, text);
    system.begin(Date.now());
    const service = new Service(system, living, folder, Date.now, most);
    if (service.left) await served(service, words);
    else service.fill();                 // it was killed before it could end its session
    service.close();
    isFull = service.isFull;
    if (isFull) folder.add(["END"]);
    folder.told((await living.end())[0]);
    if (service.why && !isFull) throw new Wrong(service.why);
  } finally {
    living.child.stdin.end();
    folder.close();
  }
  const status = words.check ? reported(verified(its, folder)) : 0;
  if (isFull) throw new Wrong(fullText(folder));
  return status;
}

/** Says something, and gives the status.
 * @param {[string, number]} said */
function reported([said, status]) {
  write(said + "\n");
  return status;
}

command("timesharing", main);
