// The page: the texts that it was packed with: the examples, the tasks, and the transcripts of other monitors. They are one pack, which is unpacked
// before the rest of the page begins.

import {alertOf, itemOf} from "./dom.js";
import {unpacked} from "./packing.js";

/** An example: its name and its text.
 * @typedef {{name: string, text: string}} Example */
/** A task of labs/: its page, its public checks, and the texts beside them, each as its name and its text.
 * @typedef {{name: string, page: string, checks: [string, string][], texts: [string, string][]}} PackedTask */
/** The transcript of another monitor: a name, the session, the transcript, and a sentence that says what is wrong with that monitor.
 * @typedef {{name: string, session: string, transcript: string, about: string}} Other */

/** The texts, once they are unpacked. */
export const texts = {examples: /** @type {Example[]} */ ([]), tasks: /** @type {PackedTask[]} */ ([]), others: /** @type {Other[]} */ ([])};

/** Unpacks the texts, and begins the page.
 * @param {() => *} begin what gives the parts of the page
 * @returns {Promise<*>} these parts */
export async function withTexts(begin) {
  try {
    Object.assign(texts, JSON.parse(new TextDecoder().decode(await unpacked(itemOf("texts")))));
    return begin();
  } catch (problem) {
    alertOf(problem);
    throw problem;
  }
}
