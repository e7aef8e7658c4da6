// The page: a session that is run, what is said of its lines, in parts, and its picture, in parts.

import {MOST_MOMENTS} from "../lib/counting.js";
import {LONGEST} from "../lib/layout.js";
import {pictureOf} from "../lib/picture.js";
import {linesOf} from "../lib/session.js";
import {isMark, tellStory} from "../lib/story.js";
import {Transcript, exchanges} from "../lib/transcript.js";
import {turnsIn} from "./turns.js";

/** @typedef {import("../lib/told.js").Told} Told */
/** @typedef {import("../lib/transcript.js").Exchange} Exchange */
/** @typedef {import("../lib/engine.js").Engine} Engine */

/** A part of the lines of a session: its first line, how many it has, and all of its lines as JSON.
 * @typedef {{first: number, count: number, json: string}} Part */
/** The place of a run or a mark in the picture.
 * @typedef {{row: number, x: number, width: number, top: number, line: number, start: number, count: number, kind: string}} Spot */

export const MOST_PIECES = MOST_MOMENTS;       // of a picture
export const MOST_LISTED = 200;                // answers of one line that are listed, and what they mean
const PART_LINES = 250, PART_ROWS = 1000;      // lines of the session that are listed at once, and rows of the list

/** A session that is run: its transcript, and its lines with their answers.
 * @param {Engine} engine
 * @param {string} name
 * @param {string} text */
export function runSession(engine, name, text) {
  const {status, transcript} = engine.run(text), lines = linesOf(text);
  const turns = turnsIn(copy => engine.run(copy).transcript, lines, transcript);
  const told = exchanges(name, lines, new Transcript("the transcript", transcript), turns), last = told[told.length - 1];
  return {status, transcript, told, lines, reason: last.reason, unread: lines.length - 1 - last.line.number};
}

/** The picture of a session, without a legend of its own: its frame, the parts of each row, and its spots; nothing if it has too many pieces
 * or none.
 * @param {string} name
 * @param {Exchange[]} told
 * @returns {{picture: *, spots: Spot[]}} */
export function drawn(name, told) {
  const story = tellStory(name, told), count = story.pieces.length;
  if (!count || count > MOST_PIECES) return {picture: {count}, spots: []};
  const {frame, drawings, rows, spots, names} = pictureOf(story, name, {legend: false, brief: true});
  const kinds = [...new Set(story.pieces.filter(isMark).map(mark => mark.kind))];
  const isBroken = spots.some(({piece, width}) => !isMark(piece) && width >= LONGEST);
  return {picture: {count, frame, drawings, rows, names, kinds, isBroken}, spots: spots.map(({piece, row, x, width, top}) => isMark(piece) ?
    {row, x, width, top, line: piece.line, start: 0, count: 0, kind: piece.kind} :
    {row, x, width, top, line: piece.line, start: piece.start, count: piece.count, kind: ""})};
}

/** The whole picture of a session, as tools/timeline draws it.
 * @param {string} name
 * @param {Exchange[]} told */
export function wholePicture(name, told) { return pictureOf(tellStory(name, told, {most: MOST_PIECES}), name).svg; }

/** The rows of the list that a line has.
 * @param {Told} one */
function rowsListed(one) { return 1 + Math.min(one.answer.length, MOST_LISTED) + Math.min(one.means.length, MOST_LISTED); }

/** What is said of the lines of a session, in parts that are listed one at a time. The page takes a few texts at once from its worker, but
 * 100,000 objects would block it.
 * @param {Told[]} lines */
export function inParts(lines) {
  /** @type {Part[]} */
  const parts = [];
  /** @type {Told[]} */
  let own = [];
  let rows = 0;
  lines.forEach((one, at) => {
    own.push(one);
    rows += rowsListed(one);
    const next = lines[at + 1];
    if (next && own.length < PART_LINES && rows + rowsListed(next) <= PART_ROWS) return;
    parts.push({first: own[0].line, count: own.length, json: JSON.stringify(own)});
    own = [];
    rows = 0;
  });
  return parts;
}
