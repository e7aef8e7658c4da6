// The page: what it shows now, for all its parts.

import {texts} from "./texts.js";
import {Program} from "./worker.js";

/** @typedef {import("./looks.js").View} View */
/** @typedef {import("./steps.js").Moment} Moment */
/** @typedef {import("./running.js").Part} Part */
/** @typedef {import("./sources.js").Placed} Placed */
/** @typedef {import("./texts.js").PackedTask} PackedTask */

/** The session that is shown: its name and text, its lines in parts, its moments once they are found, its picture, and the assembly texts of
 * its jobs.
 * @typedef {{name: string, text: string, parts: Part[], listed: number, count: number, transcript: string, picture: *, sources: Placed[],
 *            refused: number, moments: Moment[] | null}} Shown */

export const program = new Program();

/** The examples, and the tasks. */
export const examples = texts.examples, tasks = texts.tasks;

/** What the page shows: the session, what holds at the moment that is drawn, the moment at which its reader is, which slots are looked at,
 * and the addresses that are shown in addition. */
export const page = {
  shown: /** @type {Shown | null} */ (null), now: /** @type {View | null} */ (null), moment: 0, drawn: -1,
  looking: /** @type {Set<string>} */ (new Set()), watched: /** @type {string[]} */ ([]), isAsking: false};

/** What parts of the page do on behalf of others: `go` to a moment, show it anew after a change (`update`), show a tab, note that there is
 * something to keep, that the reader is at another moment or session (`moved`), and that there is another text to be assembled (`assembled`), and
 * show one console in the Terminal tab (`single`). */
export const act = {
  go: (/** @type {number} */ _moment) => {}, update: () => {}, choose: (/** @type {string} */ _tab) => {}, keep: () => {}, moved: () => {},
  assembled: () => {}, single: () => {}};

/** The first view: a moment of an example at which a job has a byte in its hand, and somebody looks at this job. */
export const IDEA = {name: "tour-run.its", moment: 27, slot: "0"};

/** The text of an example; nothing if there is none of this name.
 * @param {string | null} name */
export function exampleOf(name) {
  const found = examples.find(one => one.name === name);
  return found ? found.text : "";
}

/** The text to begin a task with.
 * @param {PackedTask} task */
export function startOf({texts}) { return (texts.find(([name]) => name === "start.asm") || ["", ""])[1]; }
