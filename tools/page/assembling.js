// The page: what a text of the assembler, or of MIDAS, is made into: the session of its image and its listing, or its mistakes.

import {warningsOf} from "../lib/asm_causes.js";
import {consoleSaid} from "../lib/assembled.js";
import {decoded, encoded} from "../lib/bytes.js";
import {listingOf} from "../lib/listing.js";
import {refusalOf, translate} from "../lib/midas/translate.js";
import {Refused} from "../lib/midas/tree.js";
import {mistakesIn, toldMistakes} from "../lib/mistakes.js";
import {refusedSaid} from "../lib/told.js";
import {countOf} from "../lib/words.js";
import {assembledBy} from "./sources.js";

/** @typedef {import("../lib/engine.js").Engine} Engine */

/** A mistake: its line, its column or 0, and a sentence.
 * @typedef {{line: number, column: number, said: string}} Mistake */
/** What a text is made into. `plain`: the text of the assembler that a MIDAS text is made into; nothing for another one.
 * @typedef {{session: string, names: string, about: string, plain: string, listing: string[], mistakes: Mistake[]}} MadeText */

/** A text that gives no image.
 * @param {Mistake[]} mistakes
 * @param {string} plain
 * @returns {MadeText} */
function refused(mistakes, plain) { return {session: "", names: "", about: "", plain, listing: [], mistakes}; }

/** What a text is made into. Files that a MIDAS text asks for are those that the page has.
 * @param {Engine} engine
 * @param {string} name
 * @param {string} text
 * @param {Record<string, string>} files
 * @returns {MadeText} */
export function madeOf(engine, name, text, files) {
  if (!/\.mid$/i.test(name)) return imageOf(engine, name, text, "");
  const insert = (/** @type {string} */ file) => files[file] === undefined ? null : {name: file, text: encoded(files[file])};
  try {
    return imageOf(engine, name, translate(text, name, undefined, insert).text, "midas");
  } catch (problem) {
    if (!(problem instanceof Refused)) throw problem;
    const {at} = problem, source = at.file ? encoded(files[at.file] || "") : text;
    return refused([{line: at.file ? 0 : at.line, column: at.file ? 0 : at.column + 1, said: decoded(refusalOf(name, source, problem)).trimEnd()}], "");
  }
}

/** What a text of the assembler is made into.
 * @param {Engine} engine
 * @param {string} name
 * @param {string} text
 * @param {string} kind midas, if the text was made of one in MIDAS
 * @returns {MadeText} */
function imageOf(engine, name, text, kind) {
  const made = assembledBy(engine, text), plain = kind ? text : "";
  if (made.refused) {
    const all = toldMistakes(text, mistakesIn(text, copy => engine.call(["asm"], copy).output));
    return refused(all.flatMap(({line, refused: why}) => why ? [{line, column: why.column || 0, said: decoded("L" + refusedSaid(line, why).slice(1))}] :
      []), plain);
  }
  const about = "job " + made.job[0] + " " + made.job[1] + ", " + consoleSaid(made) + ", " +
    countOf(made.words.size, "word") + ", " + countOf(made.symbols.size, "symbol") +
    warningsOf(made.reading).map(warning => "; warning: " + warning).join("");
  return {session: made.session, names: made.job.slice(0, 2).join(" "), about, plain, listing: listingOf(name, made).map(decoded), mistakes: []};
}
