// The page: what an assembly text is assembled to, and which jobs of a session are those of a text.

import {Assembled} from "../lib/assembled.js";
import {octal, twelve, value} from "../lib/words.js";
import {slotOf} from "../lib/transcript.js";

/** @typedef {import("../lib/session.js").Line} Line */
/** @typedef {import("../lib/transcript.js").Exchange} Exchange */
/** @typedef {import("../lib/engine.js").Engine} Engine */

/** A text whose words are those of a LOAD block: the line of LOAD, its symbols, the lines that give words to locations, and its lines.
 * @typedef {{line: number, symbols: [string, number][], places: [number, number][], lines: string[]}} Source */
/** The same with the slot in which LOAD made its job, and the line of the next LOAD there.
 * @typedef {Source & {slot: string, until: number}} Placed */

/** A text with its image, which the program makes.
 * @param {Engine} engine
 * @param {string} text */
export function assembledBy(engine, text) { return new Assembled(text, engine.call(["asm"], text).output); }

/** The words of each LOAD block of a session, with the names of its job, by the line of LOAD.
 * @param {Line[]} lines */
function imagesOf(lines) {
  /** @type {Map<number, {names: string, words: Map<number, string>}>} */
  const images = new Map();
  /** @type {{names: string, words: Map<number, string>} | null} */
  let image = null;
  for (const line of lines) {
    if (line.kind === "LOAD") images.set(line.number, image = {names: line.words.slice(1, 3).join(" "), words: new Map()});
    else if (line.kind === "GO") image = null;
    else if (line.kind === "a/" && image) {
      const {words} = image;
      line.words.slice(1).forEach((word, at) => words.set(value(line.words[0].slice(0, -1)) + at, twelve(word)));
    }
  }
  return images;
}

/** The assembly texts whose words are those of a LOAD block of a session.
 * @param {Engine} engine
 * @param {Line[]} lines
 * @param {string[]} texts
 * @returns {Source[]} */
export function sourcesOf(engine, lines, texts) {
  const images = imagesOf(lines);
  return texts.flatMap(text => {
    const made = assembledBy(engine, text);
    if (made.refused) return [];
    const places = [...made.reading.given].filter(([at]) => made.words.has(at)), own = made.reading.lines.map(line => line.text);
    const isSame = (/** @type {{names: string, words: Map<number, string>}} */ image) => image.names === made.job.slice(0, 2).join(" ") &&
      image.words.size === made.words.size && [...image.words].every(([at, word]) => made.words.get(at) === word);
    return [...images].filter(([, image]) => isSame(image)).map(([line]) => ({line, symbols: [...made.symbols], places, lines: own}));
  });
}

/** The same with their slots.
 * @param {Source[]} sources
 * @param {Exchange[]} told
 * @returns {Placed[]} */
export function placedSources(sources, told) {
  const loads = told.filter(({line, reason}) => line.kind === "LOAD" && !reason)
    .map(one => ({line: one.line.number, slot: octal(slotOf(one) || 0)}));
  return sources.flatMap(source => {
    const load = loads.find(one => one.line === source.line);
    const next = load && loads.find(one => one.line > load.line && one.slot === load.slot);
    return load ? [{...source, slot: load.slot, until: next ? next.line : Infinity}] : [];
  });
}
