// A command: makes docs/terminal.svg, the picture of a sitting at sessions/edit.asm, from a real run.

import {mkdtempSync, rmSync} from "node:fs";
import os from "node:os";
import path from "node:path";

import {Words, command, write} from "../lib/node/command.js";
import {TOP} from "../lib/node/program.js";
import {Wrong} from "../lib/words.js";
import {Missing, Person} from "../tests/terminal_person.js";

/** @typedef {import("../lib/glass.js").Glass} Glass */

const WORDS = new Words("terminal-picture", `
Makes docs/terminal.svg, the picture of a sitting at sessions/edit.asm, from a real run.

    tools/terminal-picture > docs/terminal.svg

Somebody types at a terminal of 80 columns and 25 rows, stops the job by Control-Z, looks at it and lets it go on; the picture shows the
screen then. Uses the proved program, else an unproved one, and python3 for the terminal.
`, []);
const PROMPT = "its> ", REST = "^Z stops";       // the operator's prompt, and the status line while all jobs wait
const COLUMN = 8, ROW = 17, EDGE = 12;           // the width and the height of a character, and the margin
const STYLE = "text { font: 13px 'DejaVu Sans Mono', Menlo, Consolas, monospace; white-space: pre; fill: #d8dee9 } " +
              ".reverse { fill: #1c1f26 }";

/** A text in a picture.
 * @param {string} text */
function escaped(text) {
  return text.replace(/[&<>"']/g, one => /** @type {Record<string, string>} */ ({"&": "&amp;", "<": "&lt;", ">": "&gt;", '"': "&quot;", "'": "&#x27;"})[one]);
}

/** A row of a screen as a picture.
 * @param {string} text
 * @param {number} y
 * @param {boolean[]} reverse */
function drawnRow(text, y, reverse) {
  const out = [], top = EDGE + y * ROW;
  if (reverse[0]) {
    const width = reverse.filter(Boolean).length * COLUMN;
    out.push('<rect x="' + EDGE + '" y="' + top + '" width="' + width + '" height="' + ROW + '" fill="#d8dee9"/>');
  }
  if (text) {
    out.push('<text x="' + EDGE + '" y="' + (top + 13) + '" textLength="' + text.length * COLUMN + '" lengthAdjust="spacingAndGlyphs"' +
             (reverse[0] ? ' class="reverse"' : "") + ' xml:space="preserve">' + escaped(text) + "</text>");
  }
  return out;
}

/** A screen as a picture.
 * @param {Glass} glass */
function drawn(glass) {
  const width = glass.columns * COLUMN + 2 * EDGE, height = glass.rows * ROW + 2 * EDGE;
  return ['<svg xmlns="http://www.w3.org/2000/svg" width="' + width + '" height="' + height + '" viewBox="0 0 ' + width + " " + height + '">',
          "<title>A terminal at which somebody stops a job, looks at it and lets it go on</title>", "<style>" + STYLE + "</style>",
          '<rect width="' + width + '" height="' + height + '" rx="6" fill="#1c1f26"/>',
          ...glass.lines().flatMap((text, y) => drawnRow(text, y, glass.reverse[y])), "</svg>"].join("\n") + "\n";
}

/** Types keys, and waits for what comes then: a text and a prompt, or a text and the status line of jobs that wait.
 * @param {Person} person
 * @param {string} keys
 * @param {string} wanted */
async function typed(person, keys, wanted) {
  const start = person.text().length, before = person.seen.length;
  person.type(keys);
  const at = await person.wait(wanted, start);
  if (wanted !== PROMPT) await person.waitStatus(REST, Math.max(before, person.bytesUntil(at)));
}

/** The picture of a sitting.
 * @param {Person} person */
async function sitting(person) {
  await person.wait("says more");
  await person.waitStatus(REST, 0);
  await typed(person, "was it a rat i saw\r", "was i tar a ti saw\r\n");
  await typed(person, "never odd o", "never odd o");
  await typed(person, "\x1a", PROMPT);
  await typed(person, "exam 0 1 2\r", PROMPT);
  await typed(person, "exam 1 1 2\r", PROMPT);
  await typed(person, "\r", PROMPT);
  await typed(person, "go\r", "");
  await typed(person, "r even\r", "neve ro ddo reven\r\n");
  const picture = drawn(person.glass);
  await typed(person, "\x1a", PROMPT);
  person.type("quit\r");
  await person.ended();
  return picture;
}

/** Makes the picture.
 * @param {string[]} given */
export async function main(given) {
  WORDS.values(given);
  const folder = mkdtempSync(path.join(os.tmpdir(), "its-")), tool = path.join(TOP, "tools", "terminal");
  const person = new Person(["sh", "-c", 'exec "$0" "$@" 2>/dev/null', tool, "--keep", path.join(folder, "kept.its"),
                             path.join(TOP, "sessions", "edit.asm")], {rows: 25});
  try {
    write(await sitting(person));
  } catch (problem) {
    if (!(problem instanceof Missing)) throw problem;
    throw new Wrong(problem.message);
  } finally {
    await person.leave();
    rmSync(folder, {recursive: true, force: true});
  }
  return 0;
}

command("terminal-picture", main);
