// For the tests of system/: people at consoles of a system that runs in the module of the page, without sockets and without a clock.

import {readdirSync} from "node:fs";
import path from "node:path";

import {systemOf} from "../lib/beginning.js";
import {typeLine} from "../lib/desk.js";
import {visible} from "../lib/keys.js";
import {split} from "../lib/session.js";
import {TOP} from "../lib/node/program.js";
import {number, octal} from "../lib/words.js";
import {engine, textOf} from "./page.js";

/** The lines of the system with all programs of system/. */
export function system() {
  const names = readdirSync(path.join(TOP, "system")).filter(name => name.endsWith(".asm"));
  return systemOf(names.map(name => [name, textOf("system/" + name)]), (_, text) => engine.answer("asm", text));
}

/** What was seen at each step: the steps are a console and what is typed there, with \x1a for Control-Z, or lines of the session. */
export function evening(begin, steps) {
  const lines = split(begin), marks = [];
  for (const [console, text] of steps) {
    if (console === -1) lines.push(...split(text));
    else {
      for (let at = 0; at < text.length; at += 1) {
        const key = text.charCodeAt(at);
        lines.push(...(key === 0o32 ? ["INT " + octal(console) + " 0 1"] : [typeLine(console, [key])]), "RUN 60 100");
      }
    }
    for (let at = 0; at < 8; at += 1) lines.push("RUN 200 100", ...[0, 1, 2].map(one => "DRAIN " + octal(one) + " 100"));
    lines.push("DIR _");
    marks.push(console);
  }
  const session = lines.join("\n") + "\nEND\n", {transcript} = engine.run(session), seen = [["", "", ""]];
  for (const answer of split(transcript)) {
    const words = answer.split(" ");
    if (words[0] === "D") seen[seen.length - 1][number(words[1])] += visible(words.slice(2).map(number));
    else if (words[0] === "R") seen.push(["", "", ""]);
    else if (words[0] === "?") throw new Error("a line is refused: " + answer + ": " + split(session)[number(words[1]) - 1]);
  }
  return {seen, session, transcript};
}
