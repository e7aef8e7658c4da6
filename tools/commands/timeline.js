// A command: draws a session and its transcript as one SVG picture.

import path from "node:path";

import {Words, command, textOf, write} from "../lib/node/command.js";
import {runOne} from "../lib/node/program.js";
import {pictureOf} from "../lib/picture.js";
import {storyOf} from "../lib/story.js";
import {Transcript} from "../lib/transcript.js";
import {Wrong} from "../lib/words.js";

const ABOUT = `
Draws a session and its transcript as one SVG picture, on standard output.

    tools/timeline sessions/echo.its > echo.svg
    tools/timeline --large --no-legend --lines 26-36 sessions/echo.its > slide.svg

Without a transcript, the program makes it. Each job has a lane. Time goes from left to right, in rows like a line of
text: a tick has a width, a run of equal letters is a bar, and each line of the operator has a narrow column at its
time. At most 20000 bars and marks are drawn; of a longer session --lines says which part. Wrong input gives one line on standard error and
status 1. docs/SESSION.md says what the lines mean.
`;

const WORDS = new Words("timeline", ABOUT, [
  {name: "--large", about: "drawn for a slide of 1280 by 720"},
  {name: "--lines", takes: "A-B", otherwise: "", about: "only what lines A to B of the session do, counted in decimal as an editor does"},
  {name: "--no-legend", key: "bare", about: "without what letters and marks mean"},
  {name: "SESSION", about: "a session, or - for standard input"},
  {name: "TRANSCRIPT", about: "its transcript, if it need not be run", optional: true}]);

const MOST = 20000;        // bars and marks of a picture
const SLIDE = {span: 560, tallest: 365, widest: 40, enlarged: 1.76};     // 1280 wide, and 720 high if the session is short enough

/** Two lines of the session, A-B or A alone.
 * @param {string} text */
export function lineRange(text) {
  const found = /^([0-9]+)(?:-([0-9]+))?$/.exec(text), first = found ? Number(found[1]) : 0, last = found ? Number(found[2] || found[1]) : 0;
  if (first < 1 || last < first) throw new Wrong("--lines " + text + ": it takes two line numbers as 26-36, in decimal");
  return {first, last};
}

/** Reads, draws and writes.
 * @param {string[]} given */
export function main(given) {
  const {session: name, transcript, lines, large, bare} = WORDS.values(given), part = lines ? lineRange(lines) : {};
  const session = textOf(name), answers = new Transcript(transcript || "the transcript", transcript ? textOf(transcript) : runOne(session, name));
  const story = storyOf(name, session, answers, {...part, most: MOST});
  if (lines && !story.pieces.length) throw new Wrong(name + ": lines " + lines + " do nothing that is drawn");
  write(pictureOf(story, path.basename(name) + (lines ? ", lines " + lines : ""), {...(large ? SLIDE : {}), legend: !bare}).svg);
  return 0;
}

command("timeline", main);
