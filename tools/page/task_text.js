// The page: the text of a task's page as elements: paragraphs, blocks of lines, and in them bold words, code and links.

import {element} from "./dom.js";

const FOLDER = "../../docs/";            // the beginning of a link to a document; this page is in that folder
const PIECES = /\*\*([^*]+)\*\*|`([^\x60]+)`|\[([^\]]+)\]\(([^)]+)\)/g;

/** A paragraph as texts and elements.
 * @param {string} text
 * @returns {(string | Node)[]} */
function pieces(text) {
  const found = [];
  let at = 0;
  for (const match of text.matchAll(PIECES)) {
    const [whole, bold, code, words, to] = match;
    found.push(text.slice(at, match.index), bold ? element("strong", "", bold) : code ? element("code", "", code) : linkTo(words, to));
    at = /** @type {number} */ (match.index) + whole.length;
  }
  return [...found, text.slice(at)];
}

/** A link to a document; the words alone, if it goes to anything else.
 * @param {string} words
 * @param {string} to
 * @returns {string | Node} */
function linkTo(words, to) {
  if (!to.startsWith(FOLDER)) return words;
  const link = element("a", "", words.replace(/^docs\//, ""));
  link.href = to.slice(FOLDER.length);
  return link;
}

/** The title of a task, which its first line has.
 * @param {string} text */
export function titleOf(text) { return text.split("\n")[0].replace(/^# */, ""); }

/** The rest of it as elements.
 * @param {string} text
 * @returns {Node[]} */
export function bodyOf(text) {
  const blocks = text.split("\n").slice(1).join("\n").split(/\n{2,}/).filter(block => block.trim());
  return blocks.map(block => /^ {4}/.test(block.replace(/^\n/, "")) ? element("pre", "lines-of", block.replace(/^ {4}/gm, "").trim()) :
    element("p", "", ...pieces(block.trim().replace(/\n/g, " "))));
}
