// What the tests share: the files of the repository, the program in the page's module, and commands called with their words.

import fs from "node:fs";
import {syncBuiltinESMExports} from "node:module";
import os from "node:os";
import path from "node:path";

import {Ended, say} from "../lib/node/command.js";
import {TOP, useProgram} from "../lib/node/program.js";
import {split} from "../lib/session.js";
import {toldLines} from "../lib/told.js";
import {toldOf} from "../lib/transcript.js";
import {Wrong, octal} from "../lib/words.js";
import {engine, textOf} from "./page.js";

export {TOP, engine, textOf};

export const TOOLS = path.join(TOP, "tools");
export const LOOP = "LOAD U J 0\n100/ 254000000100\nGO 100\n";

/** What the program in the page's module writes: of "run", "asm" or "verify". */
export function answer(kind, input) { return engine.call([kind], input).output; }

/** The lines of a session with the answers of the program, or with these. */
export function told(session, transcript = answer("run", session)) { return toldOf("the session", session, transcript); }

/** What is said of each line of a session. */
export function toldOfSession(session, transcript) { return toldLines("the session", told(session, transcript)); }

/** The sessions of sessions/ and of its exercises with their transcripts, by their names without ending. */
export function examples() {
  const names = ["sessions", "sessions/exercises"].flatMap(folder => fs.readdirSync(path.join(TOP, folder)).filter(name => name.endsWith(".its"))
    .map(name => folder + "/" + name.slice(0, -4)));
  return Object.fromEntries(names.sort().map(name => [name, [textOf(name + ".its"), textOf(name + ".out")]]));
}

const folders = [];
process.on("exit", () => { for (const folder of folders) fs.rmSync(folder, {recursive: true}); });

/** A folder with these files, which is gone when the tests are over. */
export function folderOf(files = {}) {
  const folder = fs.mkdtempSync(path.join(os.tmpdir(), "its-"));
  folders.push(folder);
  for (const [name, text] of Object.entries(files)) fs.writeFileSync(path.join(folder, name), text, "latin1");
  return folder;
}

/** Puts a text into a file, and gives its path. */
export function put(name, text) { return path.join(folderOf({[name]: text}), name); }

/** How a command ends with these words and this standard input: its status, what it writes, and what it says. */
export async function called(name, words, given = "") {
  const {main} = await import("../commands/" + name + ".js"), found = {status: 1, written: "", said: ""};
  const {writeSync, readFileSync} = fs;
  fs.writeSync = (file, data, ...more) => {
    if (file !== 1 && file !== 2) return writeSync(file, data, ...more);
    found[file === 1 ? "written" : "said"] += Buffer.from(data).toString();
    return Buffer.from(data).length;
  };
  fs.readFileSync = (file, ...more) => file === 0 ? Buffer.from(given, "latin1") : readFileSync(file, ...more);
  syncBuiltinESMExports();
  try {
    found.status = await main(words);
  } catch (problem) {
    if (problem instanceof Wrong) say(name + ": " + problem.message.split("\n").join(" "));
    else if (problem instanceof Ended) found.status = problem.status;
    else throw problem;
  } finally {
    Object.assign(fs, {writeSync, readFileSync});
    syncBuiltinESMExports();
  }
  return found;
}

/** The same with a program: the module of the page if there is no other. */
export async function calledWith(name, words, program = (kind, input) => engine.call(kind, input)) {
  useProgram(program);
  return called(name, words);
}

/** A substitute for the program: it answers sessions of one job in slot 0 that jumps to itself at 100, and judges their transcripts. */
export function looping([kind], input) {
  const lines = split(input);
  if (kind === "run") return {status: 0, output: shownBy(lines)};
  const end = lines.indexOf("END"), right = [...split(shownBy(lines.slice(0, end))), ""], found = [...lines.slice(end + 1), ""];
  const differs = right.slice(0, found.length).findIndex((line, at) => line !== found[at]);
  return {status: 0, output: differs < 0 ? "YES " + octal(found.length - 1) + "\n" : "NO " + octal(differs + 1) + "\n"};
}

/** What that program writes of a session. */
export function shownBy(session) {
  const words = " 254000000100" + " 000000000000".repeat(7);
  return session.map(line => line.split(" ")).map(([kind, one, two, three]) => {
    switch (kind) {
      case "LOAD": return "J 0\n";
      case "TICK": return "T 0 " + two + "*\n";
      case "RUN": return ("T 0 " + two + "*\n").repeat(parseInt(one, 8));
      case "EXAM": return "E 0 000100" + words.slice(0, 13 * parseInt(three, 8)) + "\n";
      default: return kind === "PEEK" ? "P 0 USER - 0 - - -\n" : "";
    }
  }).join("");
}

/** An assembly text, and its image, which the program makes. */
export const TEXT = "; a \xe9\n        JOB U J 0\n        LOC 100\nSTART:  MOVE 1,[5]\n        JRST START\nX = 200\n        GO START\n";
export const IMAGE = "VERSION 2\nLOAD U J 0\n100/ 200040000102 254000000100 000000000005\nSYM START 100\nSYM X 200\nGO 100\nEND\n";
